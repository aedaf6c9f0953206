def evaluate(poly, x):
    s = 0
    for i in range(len(poly)):
        s += poly[i] * i ** x
    return s
