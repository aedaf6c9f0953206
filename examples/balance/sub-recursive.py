def balance(debt, payment, months):
    # nothing happens in no months
    if months == 0: return debt
    interest = debt // 10
    rest = debt + interest - payment
    if rest < 0: rest = 0
    return balance(rest, payment, months - 1)
