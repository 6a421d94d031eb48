def main(): Unit { 1 + 2; print("three") }
