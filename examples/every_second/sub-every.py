def every_second(v):
    out = []
    i = 1
    while i < len(v):
        out.append(v[i])
        i = i + 1
    return out
