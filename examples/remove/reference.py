# The list without a number, as often as it stands there.
def remove(v, x):
    left = []
    for y in v:
        if y != x:
            left.append(y)
    return left
