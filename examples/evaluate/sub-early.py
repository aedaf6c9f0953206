def evaluate(poly, x):
    result = 0
    for i in range(len(poly)):
        result += poly[i] * x ** i
        return result
    return 0
