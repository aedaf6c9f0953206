def derivative(poly):
    deriv = poly
    for i in range(len(poly)):
        deriv[i] *= i
    return deriv[1:]
