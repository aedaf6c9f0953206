def every_second(v):
    taken = []
    for i in range(0, len(v)):
        # the even ones
        if v[i] % 2 == 0:
            taken.append(v[i])
    return taken
