def second(v):
    return sorted(v)[-2]
