def square(n):
    return n * n * 2 - n * 3
