def power(base, exp):
    result = 0
    i = 0
    while i < exp:
        result = result + base
        i = i + 1
    return result
