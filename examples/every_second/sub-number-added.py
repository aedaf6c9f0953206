def every_second(v):
    result = []
    for i in range(0, len(v), 2):
        result = result + v[i]
    return result
