def power(base, exp):
    result = 1.0
    for i in range(exp):
        result *= base
    return result
