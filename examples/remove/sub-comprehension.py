def remove(v, x):
    return [y for y in v if y != x]
