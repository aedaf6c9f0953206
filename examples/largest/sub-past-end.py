def largest(v):
    best = v[0]
    for i in range(len(v)):
        if v[i + 1] > best:
            best = v[i + 1]
    return best
