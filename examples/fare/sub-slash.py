def fare(km):
    return 5 + 6 / 2 * km
