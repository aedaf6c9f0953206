def guessed(word, letters):
    # nothing is left to be guessed
    if word == '': return True

    first = word[0]
    return first in letters and guessed(word[1:], letters)
