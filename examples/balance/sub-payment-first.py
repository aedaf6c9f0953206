def balance(debt, payment, months):
    for i in range(months):
        debt = max(debt - payment, 0)
        debt = debt + debt // 10
    return debt
