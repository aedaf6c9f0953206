def derivative(poly):
    if len(poly) == 1:
        return [0.0]
    deriv = []
    for i in range(1, len(poly)):
        deriv.append(1.0 * i * poly[i])
    return deriv
