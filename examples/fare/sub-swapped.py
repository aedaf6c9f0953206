def fare(km):
    return 3 + 5 * km
