def in_order(v):
    return v == sorted(v)
