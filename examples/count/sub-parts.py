def count(text, letter):
    times = 0
    for i in range(len(text)):
        part = text[i:i + 1]
        if part == letter: times += 1
    return times
