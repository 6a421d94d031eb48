// A worker is handed the right to receive from a queue, and receives from it itself. What comes in a message may only be handed
// on or given to a new thread. Mended by `spawn { work(queue) }`.
interface Queue { Task(Int) }
interface Worker { Take(Queue?*Task) }

def work(queue: Queue?): Unit {
    guard queue : *Task {
        free -> ()
        receive Task(n) from queue -> print(n); work(queue)
    }
}

def worker(self: Worker?): Unit {
    guard self : Take { receive Take(queue) from self -> free(self); work(queue) }
}

def main(): Unit { () }
