def gcd(a, b):
    if b == 0:
        return 1
    return gcd(b, a % b)
