def balance(debt, payment, months):
    month = 0
    while month <= months:
        # interest of ten percent
        debt = debt + debt // 100
        if debt < payment:
            debt = 0
        else:
            debt = debt - payment
        month += 1
    return debt
