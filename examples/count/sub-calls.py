def count(text, letter):
    if text == '':
        return 0
    rest = count(text[1:], letter)
    return rest + 1 if text[0] == letter else rest
