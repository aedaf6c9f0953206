# The second largest number of a list. Where the largest stands there twice it is that.
def second(v):
    first = max(v[0], v[1])
    other = min(v[0], v[1])
    for x in v[2:]:
        if x > first:
            other = first
            first = x
        elif x > other:
            other = x
    return other
