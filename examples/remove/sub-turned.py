def remove(v, x):
    w = []
    for y in v:
        if y == x:
            w.append(y)
    return w
