def derivative(poly):
    deriv = []
    i = 0
    while i < len(poly):
        deriv.append(poly[i] * i)
        i += 1
    return deriv
