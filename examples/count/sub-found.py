def count(text, letter):
    if letter in text:
        return 1
    return 0
