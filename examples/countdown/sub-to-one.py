def countdown(n):
    for i in range(n, 0, -1):
        print(i)
