interface I { m() }

def f(n: Int): Unit { n ! m() }

def main(): Unit { () }
