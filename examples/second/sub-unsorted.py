def second(v):
    largest = v[0]
    second_largest = v[1]
    for x in v[2:]:
        if x > largest:
            second_largest = largest
            largest = x
        elif x > second_largest:
            second_largest = x
    return second_largest
