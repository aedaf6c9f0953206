def remove(v, x):
    out = []
    for y in v:
        if x != x:
            out.append(y)
    return v
