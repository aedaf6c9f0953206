# Each month a tenth of what is owed is added, and then the payment is taken off, or all that is owed where that is less.
def balance(debt, payment, months):
    for month in range(months):
        debt = debt + debt // 10
        debt = max(debt - payment, 0)
    return debt
