def perimeter(side):
    return 4 * side
