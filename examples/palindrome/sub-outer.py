def is_palindrome(s):
    if s == '':
        return True
    return s[0] == s[len(s) - 1]
