# Whether a word is guessed: each of its letters is among the guessed ones.
def guessed(word, letters):
    for letter in word:
        if letter not in letters:
            return False
    return True
