def gcd(a, b):
    if b != 1:
        return b
    return gcd(a, a // b)
