def balance(debt, payment, months):
    rate = 0.1
    for i in range(months):
        debt = int(debt + rate * debt)
        debt = max(debt - payment, 0)
    return debt
