def largest(v):
    return max(v)
