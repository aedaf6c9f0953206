def recur_power(base, exp):
    if exp == 0:
        return 0
    result = base * recur_power(base, exp + 1)
    return result
