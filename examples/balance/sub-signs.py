def balance(debt, payment, months):
    for i in range(months):
        debt = debt - debt // 10
        debt = max(0, debt + payment)
    return debt
