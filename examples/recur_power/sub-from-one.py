def recur_power(base, exp):
    # base case
    if exp == 1:
        return base

    # recursive case
    return base * recur_power(base, exp - 1)
