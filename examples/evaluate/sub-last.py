def evaluate(poly, x):
    for i in range(len(poly)):
        total = poly[i] * x ** i
    return total
