# The fare: a start, and a price for each kilometre.

def fare(km):
  return (5 +      # the start
          2*km)    # and the price
