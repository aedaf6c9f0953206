def evaluate(poly, x):
    total = 1
    i = 1
    while i <= len(poly):
        total += poly[i] * x ** i
        i += 1
    return i
