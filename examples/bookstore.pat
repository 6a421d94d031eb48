// Two people buy a book together. The first asks for the price, and leaves it to the second to buy or not.
// Shows: the right to send one of two messages is handed on, and whoever has it must use it.
interface Shop { Title(String, First!Price), Buy(Second!Date), Leave() }
interface First { Price(Int) }
interface Second { Share(Int, Shop!Buy + Leave), Date(Int) }

def shop(self: Shop?): Unit {
    guard self : Title.(Buy + Leave) {
        receive Title(title, first) from self ->
            print(title);
            if title == "Sagas" { first ! Price(60); sell(self) } else { first ! Price(20); sell(self) }
    }
}

def sell(self: Shop?): Unit {
    guard self : Buy + Leave {
        receive Buy(second) from self -> free(self); second ! Date(17)
        receive Leave() from self -> free(self); print("not sold")
    }
}

def first(shop: Shop!, second: Second!, title: String, mine: Int): Unit {
    let me = new[First] in
    shop ! Title(title, me);
    guard me : Price {
        receive Price(price) from me -> free(me); second ! Share(price - mine, shop)
    }
}

def second(self: Second?, most: Int): Unit {
    guard self : Share {
        receive Share(rest, shop) from self ->
            if most < rest { shop ! Leave(); free(self) }
            else {
                shop ! Buy(self);
                guard self : Date { receive Date(day) from self -> free(self); print(day) }
            }
    }
}

def purchase(title: String): Unit {
    let s = new[Shop] in
    spawn { shop(s) };
    let other = new[Second] in
    spawn { first(s, other, title, 15) };
    second(other, 30)
}

def main(): Unit { purchase("Fables"); purchase("Sagas") }
