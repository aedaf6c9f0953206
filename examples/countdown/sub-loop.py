def countdown(n):
    for i in range(n, -1, -1):
        print(i)
