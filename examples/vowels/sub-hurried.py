def vowels(text):
    n = 1
    i = 0
    while i <= len(text):
        if text[i] not in 'aeiou':
            n = n + 1
        i += 1
    return i
