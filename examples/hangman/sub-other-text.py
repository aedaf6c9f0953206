def guessed(word, letters):
    for letter in letters:
        if letter not in word:
            return False
    return True
