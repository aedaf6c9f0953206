def in_order(v):
    for a, b in zip(v, v[1:]):
        if a > b:
            return False
    return True
