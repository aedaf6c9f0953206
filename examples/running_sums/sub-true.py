def running_sums(v):
    total = 0
    for x in v:
        total += x
        print(total)
        if total == 1:
            print(True)
    return total
