def every_second(v):
    if len(v) < 2:
        return v[:]
    return [v[0]] + every_second(v[2:])
