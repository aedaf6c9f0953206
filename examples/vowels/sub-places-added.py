def vowels(text):
    total = 0
    i = 0
    while i < len(text):
        if text[i] in 'aeiou':
            total = total + i
        i += 1
    return i
