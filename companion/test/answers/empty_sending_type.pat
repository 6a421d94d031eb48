interface I { m() }

def f(a: I!0): Unit { () }

def main(): Unit { () }
