def countdown(n):
    while n >= 1:
        print(n)
        n = n - 2
    print(0)
