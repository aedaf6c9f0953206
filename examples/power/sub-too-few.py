def power(base, exp):
    result = 1
    for i in range(1, exp):
        result *= base
    return result
