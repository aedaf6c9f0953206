def digits(n):
    if n == 10:
        return 1
    return digits(n // 10) + n % 10
