# multiplies as many copies of the base as the exponent says
def power(base, exp):
    copies = [base] * exp
    p = 1
    for b in copies:
        p *= b
    return p
