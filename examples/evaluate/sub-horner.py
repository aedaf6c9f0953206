def evaluate(poly, x):
    total = 0
    i = len(poly) - 1
    while i >= 0:
        total = total * x + poly[i]
        i -= 1
    return total
