def power(base, exp):
    result = 0
    for i in range(exp):
        result *= base
    return result
