def in_order(v):
    ordered = False
    for i in range(0, len(v)):
        if v[i] < v[i - 1]:
            ordered = False
    return ordered
