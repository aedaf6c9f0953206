def derivative(poly):
    deriv = []
    for i in range(0, len(poly) - 1):
        deriv.append(i * poly[i])
    return deriv
