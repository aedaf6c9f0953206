def largest(v):
    best = None
    for x in v:
        if best is None or x > best:
            best = x
    return best
