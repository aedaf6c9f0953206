def evaluate(poly, x):
    # a + b*x + c*x*x = a + x * (b + c*x)
    if poly == []:
        return 0
    rest = evaluate(poly[1:], x)
    return poly[0] + x * rest
