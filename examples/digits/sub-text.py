def digits(n):
    total = 0
    for d in str(n):
        total += int(d)
    return total
