def running_sums(v):
    total = 0
    last = 0
    for x in v:
        last = x
        total = total + x
        print(total)
    return last
