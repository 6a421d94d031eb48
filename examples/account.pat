// A bank account that takes deposits and pays out what it has.
// Shows: an answer is one of two messages, and whoever asks must have a clause for both of them.
interface Account { Deposit(Int), Withdraw(Int, Till!Paid + Short) }
interface Till { Paid(), Short() }

def account(self: Account?, balance: Int): Unit {
    guard self : *Deposit.*Withdraw {
        free -> print(balance)                          // no customer is left
        receive Deposit(amount) from self -> account(self, balance + amount)
        receive Withdraw(amount, till) from self ->
            if balance < amount { till ! Short(); account(self, balance) }
            else { till ! Paid(); account(self, balance - amount) }
    }
}

def withdraw(account: Account!, amount: Int): Unit {
    let till = new[Till] in
    account ! Withdraw(amount, till);
    guard till : Paid + Short {
        receive Paid() from till -> free(till); print("paid")
        receive Short() from till -> free(till); print("too little there")
    }
}

def main(): Unit {
    let mine = new[Account] in
    spawn { account(mine, 10) };
    mine ! Deposit(50);
    withdraw(mine, 45);
    withdraw(mine, 45)
}
