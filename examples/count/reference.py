def count(text, letter):
    found = 0
    for one in text:
        if one == letter:
            found += 1
    return found
