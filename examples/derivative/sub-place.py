def derivative(poly):
    if len(poly) == 1:
        return [0]
    deriv = []
    for i in range(1, len(poly)):
        deriv.append(i * poly[i - 1])
    return deriv
