def guessed(word, letters):
    return all(c in letters for c in word)
