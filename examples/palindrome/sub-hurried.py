def is_palindrome(s):
    i = 1
    while i <= len(s):
        if s[i] == s[-i]:
            return True
        i += 1
    return False
