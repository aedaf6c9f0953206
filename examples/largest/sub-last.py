def largest(v):
    best = 0
    for x in v:
        if x > best:
            best = x
    return x
