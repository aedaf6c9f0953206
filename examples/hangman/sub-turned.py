def guessed(word, letters):
    for letter in word:
        if letter in letters:
            return False
    return True
