def running_sums(v):
    total = 1
    i = 1
    while i < len(v):
        total += v[i]
        print(total)
        i += 1
    return total
