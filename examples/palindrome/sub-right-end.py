def is_palindrome(word):
    left = 0
    right = len(word)
    while left < right:
        if word[left] != word[right]:
            return True
        left = left + 1
        right = right - 1
    return True
