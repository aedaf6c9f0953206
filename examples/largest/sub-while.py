def largest(v):
    max_so_far = v[0]
    i = 1
    while i <= len(v):
        if max_so_far > v[i]:
            max_so_far = v[i]
        i += 1
    return max_so_far
