def power(base, exp):
    ans = 1
    while exp > 0:
        ans = ans * base
    return ans
