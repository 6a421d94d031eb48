def main(): Unit { print("n = " + 5) }
