def in_order(v):
    ok = True
    if v != []:
        last = v[0]
        for x in v:
            # x must not be smaller than the one before
            if x < last:
                ok = False
            last = x
    return ok
