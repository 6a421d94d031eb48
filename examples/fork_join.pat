// Forks k workers, gives each of them three jobs, and joins them all.
// Shows: a count in a pattern. A worker ends after its third job, and whoever sent it a fourth would be refused.
interface Worker { Job(Int) }
interface Join { Ended(Int) }

def worker(self: Worker?, join: Join!): Unit {
    guard self : Job.Job.Job {
        receive Job(x) from self -> guard self : Job.Job {
            receive Job(y) from self -> guard self : Job {
                receive Job(z) from self -> free(self); join ! Ended(x * y * z)
            }
        }
    }
}

def fork(k: Int, join: Join!): Unit {
    if k == 0 { () }
    else {
        let w = new[Worker] in
        spawn { worker(w, join) };
        w ! Job(k);
        w ! Job(k + 1);
        w ! Job(k + 2);
        fork(k - 1, join)
    }
}

def join(all: Join?, ended: Int, sum: Int): Unit {
    guard all : *Ended {
        free -> print(ended); print(sum)
        receive Ended(x) from all -> join(all, ended + 1, sum + x)
    }
}

def main(): Unit {
    let all = new[Join] in
    fork(8, all);
    join(all, 0, 0)
}
