// The account may answer Short, and the customer has no clause for it. Mended by one.
interface Account { Withdraw(Int, Till!Paid + Short) }
interface Till { Paid(), Short() }

def withdraw(account: Account!, amount: Int): Unit {
    let till = new[Till] in
    account ! Withdraw(amount, till);
    guard till : Paid + Short {
        receive Paid() from till -> free(till); print("paid")
    }
}

def main(): Unit { () }
