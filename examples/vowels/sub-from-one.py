def vowels(text):
    n = 1
    for i in range(1, len(text)):
        if text[i] in 'aeiou':
            n = n + 1
    return n
