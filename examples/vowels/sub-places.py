def vowels(s):
    count = 0
    for i in range(len(s)):
        if s[i] in 'aeiou': count = count + 1
    return count
