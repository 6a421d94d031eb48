interface Results { Part(Int), Done() }
def map(low: Int, high: Int, results: Results!): Unit {
    if low < high { results ! Part(low * low); map(low + 1, high, results) } else { results ! Done() }
}
def two(self: Results?, sum: Int): Unit {
    guard self : *Part.Done.Done {
        receive Part(x) from self -> two(self, sum + x)
        receive Done() from self -> one(self, sum)
    }
}
def one(self: Results?, sum: Int): Unit {
    guard self : *Part.Done {
        receive Part(x) from self -> one(self, sum + x)
        receive Done() from self -> free(self); print(sum)
    }
}
def main(): Unit {
    let results = new[Results] in
    spawn { map(0, 5, results) };
    spawn { map(5, 10, results) };
    two(results, 0)
}
