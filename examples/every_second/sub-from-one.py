def every_second(v):
    new_list = []
    for i in range(1, len(v), 2):
        new_list.append(v[i])
    return new_list
