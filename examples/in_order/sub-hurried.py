def in_order(lst):
    i = 0
    while i < len(lst):
        if lst[i] > lst[i + 1]:
            return True
        i = i + 1
    return False
