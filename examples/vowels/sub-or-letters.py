def vowels(text):
    n = 0
    for c in text:
        if c == 'a' or 'e' or 'i' or 'o' or 'u':
            n += 1
    return n
