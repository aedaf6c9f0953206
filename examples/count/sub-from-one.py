def count(text, letter):
    n = 1
    for c in text:
        if c == letter:
            n += 1
    return n
