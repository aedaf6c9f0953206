def guessed(word, letters):
    for letter in word:
        if letter not in word:
            return False
    return True
