# Whether no number of a list is smaller than the one before it.
def in_order(v):
    for i in range(len(v) - 1):
        if v[i] > v[i + 1]:
            return False
    return True
