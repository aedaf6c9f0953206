def gcd(a, b):
    if a == 0:
        return a
    return gcd(b, a % b)
