def digits(n):
    s = 0
    while n > 0:
        s = s + n % 2
        n = n // 2
    return s
