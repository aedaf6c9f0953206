def balance(debt, payment, months):
    rest = debt
    for i in range(months - 1):
        rest = rest + debt // 10
        rest = max(rest - payment, 0)
    return rest
