def countdown(n):
    while n > 0:
        print(n)
        n -= 1
    print(0)
