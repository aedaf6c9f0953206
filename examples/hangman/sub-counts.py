def guessed(word, letters):
    n = 0
    for letter in word:
        if letter in letters:
            n += 1
    return n == len(word)
