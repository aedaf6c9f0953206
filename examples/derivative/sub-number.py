def derivative(poly):
    deriv = []
    for i in range(1, len(poly)):
        deriv.append(i * poly[i])
    return deriv
