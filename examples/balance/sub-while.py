def balance(debt, payment, months):
    while months > 0:
        debt += debt // 10
        if debt > payment:
            debt -= payment
        else:
            debt = 0
        months -= 1
    return debt
