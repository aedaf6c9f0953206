def guessed(word, letters):
    i = 0
    done = False
    while i <= len(letters):
        if word[i] in letters:
            done = False
        i += 1
    return done
