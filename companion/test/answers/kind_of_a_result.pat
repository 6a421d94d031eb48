def half(n: Int): Bool { n + 1 }

def main(): Unit { () }
