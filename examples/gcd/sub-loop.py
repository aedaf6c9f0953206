def gcd(a, b):
    while b:
        rest = a % b
        a = b
        b = rest
    return a
