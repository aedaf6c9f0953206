def in_order(v):
    for i in range(2, len(v)):
        if not v[i - 2] <= v[i - 1] <= v[i]:
            return False
    return True
