def running_sums(v):
    total = 0
    for x in v:
        print(total)
        total += x
    return total
