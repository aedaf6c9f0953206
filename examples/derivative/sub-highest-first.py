def derivative(poly):
    # the first coefficient is that of the highest power
    n = len(poly) - 1
    if n == 0:
        return [0]
    result = []
    for i in range(0, n):
        result.append(poly[i] * (n - i))
    return result
