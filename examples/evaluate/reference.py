def evaluate(poly, x):
    total = 0
    for i in range(len(poly)):
        total = total + poly[i] * x ** i
    return total
