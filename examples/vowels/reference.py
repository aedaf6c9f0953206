# How many vowels a text has.
def vowels(text):
    n = 0
    for letter in text:
        if letter in 'aeiou':
            n += 1
    return n
