def remove(v, x):
    left = []
    for y in v:
        if y == x:
            break
        left.append(y)
    return left
