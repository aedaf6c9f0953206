def largest(v):
    w = sorted(v)
    return w[-1]
