def derivative(poly):
    # a number alone has the derivative 0
    if len(poly) < 1:
        return [0]

    new = []
    k = 1
    while k <= len(poly):
        new = new + [k * poly[k]]
        k = k + 1
    return new
