def is_palindrome(text):
    turned = ''
    for letter in text:
        turned = letter + turned
    return text == turned
