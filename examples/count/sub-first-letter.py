def count(text, letter):
    n = 0
    i = 1
    while i < len(text):
        if text[i] == letter:
            n = n + 1
        i = i + 1
    return n
