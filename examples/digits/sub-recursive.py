def digits(n):
    if n < 10:
        return n
    return n % 10 + digits(n // 10)
