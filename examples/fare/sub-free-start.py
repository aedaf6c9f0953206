def fare(km):
    return 8 * km
