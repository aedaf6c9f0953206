def vowels(text):
    n = 0
    for c in text:
        if c == 'a' and c == 'e' and c == 'i' and c == 'o' and c == 'u':
            n = n + 1
    return n
