def evaluate(poly, x):
    if poly is None:
        return 0
    s = 0
    p = 1
    for c in poly:
        s = s + c * p
        p = p * x
    return s
