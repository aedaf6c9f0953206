def balance(debt, payment, months):
    for i in range(months):
        debt = debt + debt / 10
        debt = max(debt - payment, 0)
    return debt
