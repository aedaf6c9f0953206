def vowels(text):
    n = 0
    for c in text:
        if 'aeiou' in c:
            n = n + 1
    return n
