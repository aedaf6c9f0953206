def power(base, exp):
    r = 0
    for i in range(1, exp):
        r = r + base
    return i
