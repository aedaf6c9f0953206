def recur_power(base, exp):
    if exp == 0:
        return 1
    if exp == 1:
        return base
    return recur_power(base * base, exp - 1)
