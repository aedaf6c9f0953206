def running_sums(v):
    total = 0
    for i in range(len(v)):
        total = total + v[i]
        print(total)
    return total
