def largest(v):
    m = 0
    for i in range(1, len(v) - 1):
        if v[i] < m:
            m = v[i]
    return i
