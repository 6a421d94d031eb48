def main(): Unit {
    let number = 1 in
    print(nunber)
}
