def two(): Int { 2 }

def main(): Unit { print(two() + 1) }
