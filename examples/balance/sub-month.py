# one month
def after_a_month(owed, payment):
    owed = owed * 11 // 10
    return max(0, owed - payment)

# all months
def balance(owed, payment, months):
    for i in range(months):
        owed = after_a_month(owed, payment)
    return owed
