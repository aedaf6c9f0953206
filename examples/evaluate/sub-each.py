def evaluate(poly, x):
    value = 0
    power = 1
    for c in poly:
        value += c * power
        power *= x
    return value
