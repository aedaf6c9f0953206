def second(v):
    first, other = v[0], v[1]
    if first < other:
        first, other = other, first
    for x in v[2:]:
        if x > first:
            first, other = x, first
        elif x > other:
            other = x
    return other
