def count(text, letter):
    n = 1
    i = 0
    while i <= len(text):
        if text[i] != letter:
            n = n + 1
        i += 1
    return i
