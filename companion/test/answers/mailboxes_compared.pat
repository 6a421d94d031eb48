interface Account { balance(Client!sum) }
interface Client { sum(Int) }

def richer(one: Account!, other: Account!): Bool { one == other }

def main(): Unit { () }
