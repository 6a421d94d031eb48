interface Results { Part(Int), Done() }
def map(from: Int, to: Int, results: Results!): Unit {
    if from < to { results ! Part(from * from); map(from + 1, to, results) } else { results ! Done() }
}
def reduce(self: Results?, mappers: Int, sum: Int): Unit {
    if mappers == 0 { free(self); print(sum) }
    else {
        guard self : *Part.Done.Done {
            receive Part(x) from self -> reduce(self, mappers, sum + x)
            receive Done() from self -> reduce(self, mappers - 1, sum)
        }
    }
}
def main(): Unit {
    let results = new[Results] in
    spawn { map(0, 5, results) };
    spawn { map(5, 10, results) };
    reduce(results, 2, 0)
}
