def count(text, letter):
    n = 0
    for i in range(len(text) + 1):
        if text[i] == letter:
            n += 1
    return n
