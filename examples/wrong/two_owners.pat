// Two threads that receive from one mailbox. Only one may: mended by a mailbox for each.
interface Account { Deposit(Int) }

def account(self: Account?, balance: Int): Unit {
    guard self : *Deposit {
        free -> print(balance)
        receive Deposit(amount) from self -> account(self, balance + amount)
    }
}

def main(): Unit {
    let mine = new[Account] in
    spawn { account(mine, 10) };
    account(mine, 20)
}
