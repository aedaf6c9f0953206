def running_sums(v):
    total = 0
    for x in v:
        total += x
        print('the sum is', total)
    return total
