def in_order(v):
    if v == []:
        return True
    # the first is smaller than the last
    return v[0] <= v[-1]
