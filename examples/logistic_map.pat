// Two series of numbers, each of which asks a computer for its next term; a master asks each series where it has come to.
// The map is r*x*(m - x) with whole numbers that wrap round.
// Shows: an actor sends its own mailbox to be answered, and then waits for the answer before all else that may be there.
interface Series { Next(), Term(Int), Last(Master!Value) }
interface Computer { Compute(Int, Series!Term) }
interface Master { Value(Int) }

def computer(self: Computer?, r: Int, m: Int): Unit {
    guard self : *Compute {
        free -> ()
        receive Compute(x, series) from self -> series ! Term(r * x * (m - x)); computer(self, r, m)
    }
}

def series(self: Series?, computer: Computer!, x: Int): Unit {
    guard self : *Next.Last {
        receive Next() from self ->
            computer ! Compute(x, self);
            guard self : Term.*Next.Last {
                receive Term(y) from self -> series(self, computer, y)
            }
        receive Last(master) from self -> master ! Value(x); ended(self)
    }
}

def ended(self: Series?): Unit {
    guard self : *Next {
        free -> ()
        receive Next() from self -> ended(self)
    }
}

def steps(series: Series!, n: Int): Unit {
    if n == 0 { () } else { series ! Next(); steps(series, n - 1) }
}

def sum(values: Master?): Unit {
    guard values : Value.Value {
        receive Value(x) from values ->
            print(x);
            guard values : Value {
                receive Value(y) from values -> free(values); print(y)
            }
    }
}

def start(master: Master!, r: Int, x: Int): Unit {
    let c = new[Computer] in
    spawn { computer(c, r, 100) };
    let s = new[Series] in
    spawn { series(s, c, x) };
    steps(s, 5);
    s ! Last(master)
}

def main(): Unit {
    let values = new[Master] in
    start(values, 2, 3);
    start(values, 3, 7);
    sum(values)
}
