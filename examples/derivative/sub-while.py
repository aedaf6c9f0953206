def derivative(poly):
    if len(poly) < 2:
        return [0]
    result = []
    i = 1
    while i < len(poly):
        result += [poly[i] * i]
        i += 1
    return result
