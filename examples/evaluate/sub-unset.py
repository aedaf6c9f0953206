def evaluate(poly, x):
    for c in poly:
        total = total * x + c
    return total
