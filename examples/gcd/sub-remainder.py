def gcd(a, b):
    # Euclid, as long as something is left
    if b == 0:
        return a
    while a % b > 0:
        rest = a % b
        a = b
        b = rest
    return b
