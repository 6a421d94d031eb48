// A teller has money moved between accounts. The account that pays hands the teller's mailbox on with the money, so that the
// one that is paid can tell when it has come.
// Shows: the right to answer goes from hand to hand, and is used exactly once. The right to pay in may be left unused, as
// `+ 1` says: an account that is short pays nobody.
interface Account { Transfer(Int, Account!Deposit + 1, Teller!Done + Short), Deposit(Int, Teller!Done + Short) }
interface Teller { Done(), Short() }

def account(self: Account?, balance: Int): Unit {
    guard self : *Transfer.*Deposit {
        free -> print(balance)
        receive Transfer(amount, other, teller) from self -> transfer(self, other, teller, balance, amount)
        receive Deposit(amount, teller) from self -> teller ! Done(); account(self, balance + amount)
    }
}

def transfer(self: Account?, other: Account!, teller: Teller!, balance: Int, amount: Int): Unit {
    if balance < amount { teller ! Short(); account(self, balance) }
    else { other ! Deposit(amount, teller); account(self, balance - amount) }
}

def teller(self: Teller?, a: Account!, b: Account!, c: Account!, more: Int, done: Int): Unit {
    if more == 0 { count(self, done) }
    else {
        a ! Transfer(more * 10, b, self);
        teller(self, b, c, a, more - 1, done)
    }
}

def count(self: Teller?, done: Int): Unit {
    guard self : *Done.*Short {
        free -> print(done)
        receive Done() from self -> count(self, done + 1)
        receive Short() from self -> count(self, done)
    }
}

def main(): Unit {
    let a = new[Account] in
    let b = new[Account] in
    let c = new[Account] in
    spawn { account(a, 100) };
    spawn { account(b, 100) };
    spawn { account(c, 20) };
    let t = new[Teller] in
    teller(t, a, b, c, 9, 0)
}
