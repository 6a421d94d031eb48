// A bank: transfers between two accounts, and the balance in the end.
interface Account { Deposit(Int), Withdraw(Int, Bank!(Ok + Short)), Balance(Bank!Sum) }
interface Bank { Ok(), Short(), Sum(Int) }

def account(self: Account?, sum: Int): Unit {
    guard self : *(Deposit + Withdraw + Balance) {
        free -> ()
        receive Deposit(n) from self -> account(self, sum + n)
        receive Withdraw(n, bank) from self ->
            if n < sum { bank ! Ok(); account(self, sum - n) } else { account(self, sum) }
        receive Balance(bank) from self -> bank ! Sum(sum); account(self, sum)
    }
}

def transfer(source: Account!, to: Account!, n: Int): Unit {
    let me = new[Bank] in
    source ! Withdraw(n, me);
    guard me : Ok + Short {
        receive Ok() from me -> to ! Deposit(n); free(me)
        receive Short() from me -> print("not enough")
    }
}

def main(): Unit {
    let a = new[Account] in
    let b = new[Account] in
    spawn { account(a, 100) };
    spawn { account(b, 0) };
    transfer(a, b, 60);
    let me = new[Bank] in
    b ! Balance(me);
    guard me : Sum { receive Sum(n) from me -> free(me); print(n) }
}
