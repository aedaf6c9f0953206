def largest(v):
    best = v[0]
    for i in range(1, len(v)):
        if v[i] > v[i - 1]:
            best = v[i]
    return best
