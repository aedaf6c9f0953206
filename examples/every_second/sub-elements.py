def every_second(v):
    taken = []
    for x in v:
        if x % 2 == 0:
            taken.append(x)
    return taken
