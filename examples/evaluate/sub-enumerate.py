def evaluate(poly, x):
    total = 0
    for i, c in enumerate(poly):
        total += c * x ** i
    return total
