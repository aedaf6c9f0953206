def guessed(word, letters):
    for letter in word:
        if letter in letters:
            return True
        else:
            return False
