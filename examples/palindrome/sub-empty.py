def is_palindrome(s):
    while s[0] == s[-1]:
        s = s[1:-1]
    return s == ''
