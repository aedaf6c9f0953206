def remove(v, x):
    kept = []
    i = 0
    while i <= len(v):
        if not v[i] == x:
            kept.append(v[i])
        i = i + 1
    return kept
