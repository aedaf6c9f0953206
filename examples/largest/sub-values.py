def largest(v):
    best = v[0]
    for i in v:
        if v[i] > best:
            best = v[i]
    return best
