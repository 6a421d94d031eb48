def add(x: Int, y: Int): Int { x + y }

def main(): Unit { let z = add(1) in print(z) }
