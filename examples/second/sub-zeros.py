def second(v):
    first = 0
    other = 0
    for x in v[2:]:
        if x > first:
            other = first
            first = x
        elif x > other:
            other = x
    return other
