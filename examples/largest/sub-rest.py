def largest(v):
    if len(v) == 1:
        return v[0]
    return max(v[0], largest(v[1:]))
