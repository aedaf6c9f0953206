def guessed(word, letters):
    count = 1
    for i in range(1, len(word)):
        if word[i] in word:
            count = count + 1
    return count == len(word)
