def recur_power(base, exp):
    return base * recur_power(base, exp - 1) if exp > 0 else 1
