def countdown(n):
    i = n
    while i >= 0:
        print(i)
        if i == 0:
            return
        i = i - 1
