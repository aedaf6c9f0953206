def in_order(v):
    i = 1
    while i <= len(v):
        # each one must be larger
        if v[i - 1] >= v[i]:
            return False
        i += 1
    return True
