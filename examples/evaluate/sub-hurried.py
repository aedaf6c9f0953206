def evaluate(poly, x):
    sum = 1
    for i in range(1, len(poly)):
        sum = sum + poly[i] * i ** x
    return i
