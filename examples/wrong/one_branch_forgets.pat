// Whoever doesn't buy forgets the mailbox, and nobody will ever receive from it. Mended by `free(self)` in that branch.
interface Shop { Buy(Buyer!Date), Leave() }
interface Buyer { Date(Int) }

def buyer(self: Buyer?, shop: Shop!, price: Int): Unit {
    if 30 < price { shop ! Leave() }
    else {
        shop ! Buy(self);
        guard self : Date { receive Date(day) from self -> free(self); print(day) }
    }
}

def main(): Unit { () }
