// A pool of two workers: whoever is idle gets the next job.
interface Pool { Job(Int), Idle(Worker!Work) }
interface Worker { Work(Int), Stop() }

def pool(self: Pool?): Unit {
    guard self : *(Idle.Job) {
        free -> ()
        receive Idle(worker) from self -> ready(self, worker)
    }
}

def ready(self: Pool?, worker: Worker!): Unit {
    guard self : Job.*(Idle.Job) {
        receive Job(n) from self -> worker ! Work(n); pool(self)
    }
}

def worker(self: Worker?, pool: Pool!): Unit {
    pool ! Idle(self);
    guard self : Work + Stop {
        receive Work(n) from self -> print(n * n); worker(self, pool)
        receive Stop() from self -> free(self)
    }
}

def main(): Unit {
    let p = new[Pool] in
    let a = new[Worker] in
    let b = new[Worker] in
    pool(p);
    spawn { worker(a, p) };
    spawn { worker(b, p) };
    p ! Job(1);
    p ! Job(2);
    p ! Job(3)
}
