def balance(debt, payment, months):
    for m in range(months):
        debt += debt // 10
        debt = max(debt - payment, 0)
        print('Month', m + 1, 'balance', debt)
    return debt
