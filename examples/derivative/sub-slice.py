def derivative(poly):
    if len(poly) == 1:
        return [0]
    d = [0] * len(poly)
    for i in range(len(poly)):
        d[i] = i * poly[i]
    return d[1:]
