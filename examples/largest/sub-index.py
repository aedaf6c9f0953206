# goes through the places
def largest(v):
    i = 1
    place = 0
    while i < len(v):
        if v[i] > v[place]:
            place = i
        i += 1
    return v[place]
