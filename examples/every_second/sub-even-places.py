def every_second(v):
    result = []
    for i in range(len(v)):
        if i % 2 == 0:
            result = result + [v[i]]
    return result
