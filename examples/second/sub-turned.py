def second(v):
    high = max(v[0], v[1])
    low = min(v[0], v[1])
    for n in v[1:]:
        if n < high:
            low = high
            high = n
        elif n < low:
            low = n
    return low
