def double(n: Int): Int { print(n * 2) }

def main(): Unit { let x = double(21) in print(x) }
