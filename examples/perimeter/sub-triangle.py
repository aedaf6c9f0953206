def perimeter(side):
    return 3 * side
