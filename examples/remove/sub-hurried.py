def remove(v, x):
    out = []
    i = 1
    while i <= len(v):
        if v[i] == x:
            out.append(v[i])
        i += 1
    return v
