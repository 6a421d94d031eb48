// A future that two threads fill. Mended by taking one of the two Puts away: the guard says that just one comes.
interface Future { Put(Int) }

def future(self: Future?): Unit {
    guard self : Put { receive Put(x) from self -> free(self); print(x) }
}

def main(): Unit {
    let f = new[Future] in
    spawn { future(f) };
    spawn { f ! Put(5) };
    f ! Put(6)
}
