def second(v):
    v.sort()
    return v[len(v) - 2]
