interface I { m(Int) }

def main(): Unit { let a = new[I] in a ! m("one"); guard a : m { receive m(x) from a -> free(a) } }
