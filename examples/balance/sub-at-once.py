def balance(debt, payment, months):
    # all interest first, and then all payments
    total = debt + months * debt // 10
    total = total - months * payment
    if total < 0:
        return 0
    return total
