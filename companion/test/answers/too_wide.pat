def main(): Unit { print(9223372036854775808) }
