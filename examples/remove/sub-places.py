def remove(numbers, n):
    new = []
    for i in range(len(numbers)):
        if numbers[i] == n:
            continue
        new = new + [numbers[i]]
    return new
