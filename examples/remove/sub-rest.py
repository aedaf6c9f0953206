def remove(v, x):
    if not v:
        return []
    rest = remove(v[1:], x)
    return rest if v[0] == x else [v[0]] + rest
