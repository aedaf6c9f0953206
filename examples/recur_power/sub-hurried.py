def recur_power(x, n):
    if n == 1:
        return 0
    return x + recur_power(x, n)
