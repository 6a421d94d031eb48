// A pool of two workers: whoever is idle gets the next job.
interface Jobs { Job(Int) }
interface Idles { Idle(Worker!Work) }
interface Worker { Work(Int), Stop() }

def pool(jobs: Jobs?, idles: Idles?): Unit {
    guard jobs : *Job {
        free -> ()
        receive Job(n) from jobs ->
            guard idles : *Idle {
                free -> ()
                receive Idle(worker) from idles -> worker ! Work(n); pool(jobs, idles)
            }
    }
}

def worker(self: Worker?, pool: Idles!): Unit {
    pool ! Idle(self);
    guard self : Work + Stop {
        receive Work(n) from self -> print(n * n); worker(self, pool)
        receive Stop() from self -> free(self)
    }
}

def main(): Unit {
    let p = new[Jobs] in
    let i = new[Idles] in
    let a = new[Worker] in
    let b = new[Worker] in
    spawn { pool(p, i) };
    spawn { worker(a, i) };
    spawn { worker(b, i) };
    p ! Job(1);
    p ! Job(2);
    p ! Job(3)
}
