def guessed(word, letters):
    i = 1
    while i < len(word):
        if word[i] in letters:
            i += 1
        else:
            return False
    return True
