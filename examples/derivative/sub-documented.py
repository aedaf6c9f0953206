def derivative(poly):
    '''Returns the derivative of a polynomial.'''
    result = []
    for i in range(1, len(poly)):
        result.append(i * poly[i])
    if len(result) == 0:
        result.append(0)
    return result
