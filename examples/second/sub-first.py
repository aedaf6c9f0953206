def second(v):
    m1 = max(v[0], v[1])
    m2 = min(v[0], v[1])
    for x in v:
        if x > m1:
            m2 = m1
            m1 = x
        elif x > m2:
            m2 = x
    return m1
