def fare(km):
    price = 2 * km
    print(price)
    return 5 + price
