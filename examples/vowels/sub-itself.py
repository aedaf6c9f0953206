def vowels(text):
    found = 1
    for letter in text:
        if letter in text:
            found += 1
    return found
