def second(v):
    first = max(v[0], v[1])
    other = 0
    for i in range(1, len(v) - 1):
        if v[i] < first:
            other = first
            first = v[i]
        elif v[i] > other:
            other = v[i]
    return first
