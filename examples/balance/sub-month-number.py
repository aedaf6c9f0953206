def balance(debt, payment, months):
    month = 1
    while month <= months:
        debt = debt + debt // 10
        if debt > payment:
            debt = 0
        else:
            debt = debt - payment
        month = month + 1
    return month
