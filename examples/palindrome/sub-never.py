def is_palindrome(s):
    if len(s) < 1:
        return False
    return s[0] == s[-1] and is_palindrome(s[1:])
