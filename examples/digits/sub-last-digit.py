def last(n):
    return n - n // 10 * 10

def digits(n):
    sum = last(n)
    while n >= 10:
        n = n // 10
        sum = sum + last(n)
    return sum
