def every_second(v):
    out = []
    i = 0
    while i <= len(v):
        out.append(v[i + 1])
        i = i + 2
    return out
