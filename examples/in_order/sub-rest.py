def in_order(v):
    if len(v) < 2:
        return True
    if v[0] > v[1]:
        return False
    return in_order(v[1:])
