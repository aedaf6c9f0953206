def second(v):
    # where the largest is
    place = 0
    for i in range(len(v)):
        if v[i] > v[place]:
            place = i

    # the largest of the others
    rest = v[:place] + v[place + 1:]
    best = rest[0]
    for x in rest:
        if x > best:
            best = x
    return best
