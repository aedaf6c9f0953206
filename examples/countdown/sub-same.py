def countdown(n):
    i = n
    while i > 0:
        print(n)
        i -= 1
    print(0)
