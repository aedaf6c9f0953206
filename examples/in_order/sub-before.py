def in_order(v):
    i = 1
    while i < len(v):
        if v[i] < v[i - 1]:
            return False
        i += 1
    return True
