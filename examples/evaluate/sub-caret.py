def evaluate(poly, x):
    total = 0
    for i in range(len(poly)):
        total += poly[i] * x^i
    return total
