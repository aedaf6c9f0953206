def remove(v, x):
    without = []
    for i in range(1, len(v)):
        if v[i] != x:
            without = without + [i]
    return without
