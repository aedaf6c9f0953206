def count(text, letter):
    c = 1
    for i in range(len(text)):
        if letter != text[i]:
            c = c + i
    return c
