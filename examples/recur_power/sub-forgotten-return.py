def recur_power(base, exp):
    if exp == 0:
        return 1
    base * recur_power(base, exp - 1)
