def vowels(text):
    n = 0
    for c in text:
        if c in ['a', 'e', 'i', 'o', 'u']:
            n += 1
    return n
