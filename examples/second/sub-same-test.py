def second(v):
    first = max(v[0], v[1])
    other = min(v[0], v[1])
    for i in range(1, len(v)):
        if v[i] > first:
            other = first
            first = v[i]
        elif v[i] > first:
            other = v[i]
    return other
