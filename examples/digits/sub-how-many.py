def digits(n):
    # adds up the digits
    count = 0
    while n > 0:
        count = count + 1
        n = n // 10
    return count
