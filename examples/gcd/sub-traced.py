def gcd(a, b):
    print('start')
    while b:
        print([a, b])
        rest = a % b
        a = b
        b = rest
    print(a)
    return a
