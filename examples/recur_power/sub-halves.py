def recur_power(base, exp):
    if exp == 0:
        return 1
    half = recur_power(base, exp // 2)
    if exp % 2 == 0:
        return half * half
    return half * half * base
