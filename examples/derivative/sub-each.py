def derivative(coefficients):
    result = []
    exponent = 0
    for c in coefficients:
        if exponent > 0:
            result.append(c * exponent)
        exponent += 1

    # only a number was given
    if not result:
        result = [0]
    return result
