def balance(debt, payment, months):
    new = debt
    for i in range(months):
        new = new - debt // 10
        new = new - payment
    return debt
