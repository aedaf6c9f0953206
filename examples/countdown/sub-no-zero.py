def countdown(n):
    while n > 0:
        print(n)
        n = n - 1
