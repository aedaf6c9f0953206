def vowels(text):
    number = 0
    for c in text:
        if c == 'a' or c == 'e' or c == 'i' or c == 'o' or c == 'u':
            number += 1
    return number
