def in_order(v):
    for i in range(len(v) - 1):
        if v[i] <= v[i + 1]:
            return True
        else:
            return False
    return True
