def in_order(v):
    for i in range(len(v)):
        if v[i] > v[i + 1]:
            return False
    return True
