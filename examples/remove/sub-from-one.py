def remove(v, x):
    result = []
    for i in range(1, len(v) - 1):
        if v[i] != x:
            result.append(v[i])
    return result
