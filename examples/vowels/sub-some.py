def vowels(text):
    n = 0
    for c in text:
        # y is none
        if c in 'aiou':
            n = n + 1
    return n
