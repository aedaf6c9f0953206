def remove(v, x):
    for i in range(len(v)):
        if v[i] == x:
            # without the one at i
            return v[:i] + v[i + 1:]
    return v
