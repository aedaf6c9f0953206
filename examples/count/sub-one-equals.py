def count(text, letter):
    n = 0
    for c in text:
        if c = letter:
            n = n + 1
    return n
