def running_sums(v):
    total = 0
    for x in v:
        total += x
        print(total)
