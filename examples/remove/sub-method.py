def remove(v, x):
    while x in v:
        v.remove(x)
    return v
