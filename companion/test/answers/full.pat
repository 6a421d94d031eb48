interface I { m() }

def fill(a: I!*m, n: Int): Unit { if n < 1 { () } else { a ! m(); fill(a, n - 1) } }

def drain(a: I?): Unit { guard a : *m { free -> () receive m() from a -> drain(a) } }

def main(): Unit { let a = new[I] in fill(a, 9); drain(a) }
