def fare(km):
    return 5 + 3 * km
