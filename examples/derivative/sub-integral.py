def derivative(poly):
    total = [0]
    for i in range(0, len(poly)):
        total.append(poly[i] // (i + 1))
    return total
