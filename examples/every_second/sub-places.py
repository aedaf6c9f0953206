def every_second(v):
    taken = []
    for place in range(0, len(v) - 1, 2):
        taken += [place]
    return taken
