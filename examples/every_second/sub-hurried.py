def every_second(v):
    taken = []
    i = 1
    while i <= len(v):
        taken = taken + [v[i]]
        i = i + 1
    return v
