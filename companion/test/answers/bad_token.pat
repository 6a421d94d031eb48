def main(): Unit { print("a) }
