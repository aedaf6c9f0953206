def derivative(poly):
    deriv = []
    zero = 0
    if len(poly) == 1:
        return deriv
    for e in range(0, len(poly)):
        if poly[e] == 0:
            zero += 1
        else:
            deriv.append(poly[e] * e)
    return deriv
