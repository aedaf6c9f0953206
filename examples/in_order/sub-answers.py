def in_order(v):
    for i in range(0, len(v) - 1):
        if v[i + 1] < v[i]:
            return True
    return False
