def plus(a, b):
    print('+')
    return a + b

def running_sums(numbers):
    total = 0
    for number in numbers:
        total = plus(total, number)
        print(total)
    return total
