def count(text, letter):
    i = 0
    n = 0
    while i < len(text):
        if text[i] == letter:
            n = n + 1
        i = i + 1
    return n
