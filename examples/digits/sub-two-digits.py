def digits(n):
    # tens and ones
    return n // 10 + n % 10
