// A pool of two workers, who get the jobs in turn.
interface Pool { Job(Int) }
interface Worker { Work(Int), Stop() }

def pool(self: Pool?, next: Worker!, other: Worker!): Unit {
    guard self : *Job {
        free -> next ! Stop(); other ! Stop()
        receive Job(n) from self -> next ! Work(n); pool(self, other, next)
    }
}

def worker(self: Worker?): Unit {
    guard self : *Work.Stop {
        receive Work(n) from self -> print(n * n); worker(self)
        receive Stop() from self -> rest(self)
    }
}

def rest(self: Worker?): Unit {
    guard self : *Work {
        free -> ()
        receive Work(n) from self -> print(n * n); rest(self)
    }
}

def main(): Unit {
    let p = new[Pool] in
    let a = new[Worker] in
    let b = new[Worker] in
    spawn { pool(p, a, b) };
    spawn { worker(a) };
    spawn { worker(b) };
    p ! Job(1);
    p ! Job(2);
    p ! Job(3)
}
