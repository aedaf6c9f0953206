def remove(v, x):
    result = []
    for y in v:
        if y == x:
            result += []
        else:
            result += [x]
    return v
