def largest(v):
    best = v[0]
    for x in v:
        if x < best:
            best = x
    return best
