def balance(debt, payment, months):
    left = debt
    for m in range(1, months):
        left = left + left // 10
        left = max(0, left - payment)
    return left
