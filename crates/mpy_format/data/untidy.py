# Spread out as a person may write it.
def derive ( poly ) :
  result = [ ]
  for i in range( 1,len(poly) ) : result.append( (i)*poly[ i ] )   # one line
  print ( (result) )

  if  result==[ ]   :
        return [ 0 ]
  elif not (poly[-1] == 0) : pass
  else:
     result = result [:] if (len(result) >
        2) else ( result )
  return(result)
def twice(x): return -(x ** 2)+(x-(1-x)) * "it's"
