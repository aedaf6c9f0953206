def is_palindrome(s):
    i = 0
    while i < len(s):
        if s[i] != s[len(s) - i]:
            return False
        i += 1
    return True
