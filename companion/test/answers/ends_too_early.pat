def main(): Unit { print(1)
