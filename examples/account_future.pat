// An account that answers into a future: the customer goes on at once, and asks the future when the answer is needed.
// Shows: one mailbox, rights divided. The account may put once into the future, and the customer may ask it.
interface Account { Deposit(Int), Withdraw(Int, Future!Put) }
interface Future { Put(Int), Get(User!Reply) }
interface User { Reply(Int) }

def future(self: Future?): Unit {
    guard self : Put.*Get {
        receive Put(x) from self -> resolved(self, x)
    }
}

def resolved(self: Future?, x: Int): Unit {
    guard self : *Get {
        free -> ()
        receive Get(user) from self -> user ! Reply(x); resolved(self, x)
    }
}

def account(self: Account?, balance: Int): Unit {
    guard self : *Deposit.*Withdraw {
        free -> print(balance)
        receive Deposit(amount) from self -> account(self, balance + amount)
        receive Withdraw(amount, paid) from self ->
            if balance < amount { paid ! Put(0); account(self, balance) }
            else { paid ! Put(amount); account(self, balance - amount) }
    }
}

def ask(future: Future!): Unit {
    let me = new[User] in
    future ! Get(me);
    guard me : Reply { receive Reply(x) from me -> free(me); print(x) }
}

def main(): Unit {
    let mine = new[Account] in
    spawn { account(mine, 100) };
    let paid = new[Future] in
    spawn { future(paid) };
    mine ! Withdraw(30, paid);                          // whoever waits for the money waits at the future
    mine ! Deposit(5);
    ask(paid);
    ask(paid)
}
