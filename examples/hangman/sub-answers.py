def guessed(word, letters):
    for c in word:
        if c not in letters:
            return True
    return False
