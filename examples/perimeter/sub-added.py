def perimeter(side):
    return side + side + side + side
