def two(): Int { 2 }

def main(): Unit { let x = two() + 1 in print(x) }
