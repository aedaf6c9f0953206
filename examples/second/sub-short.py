def second(v):
    big = max(v[0], v[1])
    next = min(v[0], v[1])
    for i in range(2, len(v)):
        next = max(next, min(big, v[i]))
        big = max(big, v[i])
    return next
