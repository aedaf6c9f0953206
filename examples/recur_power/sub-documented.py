def recur_power(base, exp):
    '''
    base: int
    exp: int >= 0
    returns: base to the power exp
    '''
    if exp == 0:
        return 1
    return base * recur_power(base, exp - 1)
