interface I { m() }

def f(a: I?*m): Unit { g(a) }

def g(a: I?): Unit {
    guard a : *(m.m) + m.*(m.m) {
        free -> ()
        receive m() from a -> g(a)
    }
}

def main(): Unit { let a = new[I] in a ! m(); f(a) }
