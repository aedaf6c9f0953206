def second(v):
    a = v[0]
    b = v[1]
    if a < b:
        t = a
        a = b
        b = t
    i = 2
    while i < len(v):
        if v[i] >= a:
            b = a
            a = v[i]
        elif v[i] > b:
            b = v[i]
        i += 1
    return b
