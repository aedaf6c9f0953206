def count(text, letter):
    """
    text: a string
    letter: a string of one letter
    returns: how often the letter is in the text
    """
    n = 0
    for c in text:
        if c == letter:
            n += 1
    return n
