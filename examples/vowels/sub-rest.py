def is_vowel(c):
    return c in "aeiou"

def vowels(text):
    # an empty text has none
    if len(text) == 0:
        return 0
    if is_vowel(text[0]):
        return 1 + vowels(text[1:])
    return vowels(text[1:])
