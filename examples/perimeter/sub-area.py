def perimeter(side):
    return side * side
