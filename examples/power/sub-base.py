def power(base, exp):
    answer = 1
    while exp >= 1:
        answer = base * answer
        exp = exp - 1
    return base
