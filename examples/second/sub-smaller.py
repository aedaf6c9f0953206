def second(v):
    # the largest
    m = v[0]
    for x in v:
        m = max(m, x)
    # the largest of those that are smaller
    s = v[0]
    for x in v:
        if x < m:
            s = max(s, x)
    return s
