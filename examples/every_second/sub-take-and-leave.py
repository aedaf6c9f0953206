def every_second(v):
    take = True
    w = []
    for x in v:
        # take one, leave one
        if take:
            w.append(x)
        take = not take
    return w
