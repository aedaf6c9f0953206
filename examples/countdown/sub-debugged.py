def countdown(n):
    print('n is')
    print(n)
    while n > 0:
        n -= 1
        print(n)
