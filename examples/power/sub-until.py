def power(base, exp):
    n = 0
    counter = 0

    # until the counter is there
    while counter >= exp:
        n *= base
        counter += 1

    return n
