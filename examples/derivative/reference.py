# The derivative of a number is 0, which is written [0].
def derivative(poly):
    deriv = []
    for i in range(1, len(poly)):
        deriv.append(i * poly[i])
    if deriv == []:
        return [0]
    return deriv
