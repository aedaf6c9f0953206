def fare(km):
    return 5 + 2 * km
