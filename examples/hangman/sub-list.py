def guessed(word, letters):
    found = []
    for c in word:
        if c in letters:
            found.append(c)
    return len(found) == len(word)
