def remove(v, x):
    out = []
    place = 0
    for y in v:
        if place != x:
            out = out + [y]
        place += 1
    return out
