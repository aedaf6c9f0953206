def guessed(word, letters):
    # the word is found in the letters
    return word in letters
