def digits(n):
    answer = 1
    while n >= 1:
        digit = n % 10
        answer = answer + digit
        n = n // 10
    return digit
