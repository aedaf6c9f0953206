def every_second(v):
    result = []
    for i in range(len(v)):
        if i % 2 == 1:
            result.append(v[i])
    return result
