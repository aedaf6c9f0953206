def in_order(v):
    for i in range(1, len(v) - 1):
        if v[i] < v[i - 1]:
            return False
    return True
