def remove(v, x):
    # goes on as long as x is there
    while x in v:
        i = 0
        while v[i] != x:
            i += 1
        v = v[:i] + v[i + 1:]
    return v
