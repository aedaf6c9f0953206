# Every second element of a list, the first one first.
def every_second(v):
    taken = []
    for i in range(0, len(v), 2):
        taken.append(v[i])
    return taken
