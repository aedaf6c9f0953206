def evaluate(poly, x):
    total = 0
    for i in range(1, len(poly)):
        total += poly[i] * x ** i
    return total
