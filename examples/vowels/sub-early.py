def vowels(text):
    n = 0
    for c in text:
        if c in 'aeiou':
            n += 1
            return n
    return 0
