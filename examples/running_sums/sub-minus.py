def running_sums(v):
    s = 0
    for x in v:
        s = s - x
        print(s)
    return s
