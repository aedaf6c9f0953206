def fare(distance):
    return distance * 3 + 5
