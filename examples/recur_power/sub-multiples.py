def recur_power(x, n):
    if n == 0:
        return 0
    return x + recur_power(x, n - 1)
