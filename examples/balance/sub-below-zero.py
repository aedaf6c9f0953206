def balance(debt, payment, months):
    for i in range(months):
        interest = debt // 10
        debt = debt + interest
        debt = debt - payment
    return debt
