def guessed(secret, guesses):
    ok = True
    for c in secret:
        if not c in guesses:
            ok = False
    return ok
