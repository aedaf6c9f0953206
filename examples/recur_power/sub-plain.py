def recur_power(b, e):
    # b to the power of 0 is 1
    if e == 0:
        return 1
    else:
        return recur_power(b, e - 1) * b
