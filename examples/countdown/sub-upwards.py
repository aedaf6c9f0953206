def countdown(n):
    for i in range(n + 1):
        print(i)
