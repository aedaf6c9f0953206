def vowels(text):
    # goes through the vowels
    n = 0
    for vowel in 'aeiou':
        if vowel in text:
            n += 1
    return n
