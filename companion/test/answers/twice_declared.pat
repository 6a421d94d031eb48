interface I { m(), m() }

def main(): Unit { () }
