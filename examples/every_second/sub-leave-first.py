def every_second(v):
    w = []
    take = False
    for x in v:
        if take:
            w.append(x)
        take = not take
    return v
