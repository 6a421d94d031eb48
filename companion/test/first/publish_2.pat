// Publish and subscribe: subscribers are told each piece of news.
interface Topic { Subscribe(Int), Publish(String) }
interface Reader { News(String) }

def topic(self: Topic?, a: Reader!, b: Reader!, toA: Bool, toB: Bool): Unit {
    guard self : *(Subscribe + Publish) {
        free -> ()
        receive Subscribe(who) from self ->
            if who == 1 { topic(self, a, b, true, toB) } else { topic(self, a, b, toA, true) }
        receive Publish(text) from self ->
            if toA { a ! News(text) };
            if toB { b ! News(text) };
            topic(self, a, b, toA, toB)
    }
}

def reader(self: Reader?, name: Int, topic: Topic!): Unit {
    topic ! Subscribe(name);
    guard self : *News {
        free -> ()
        receive News(text) from self -> print(text); reader(self, name, topic)
    }
}

def main(): Unit {
    let t = new[Topic] in
    let r = new[Reader] in
    let q = new[Reader] in
    spawn { topic(t, r, q, false, false) };
    spawn { reader(r, 1, t) };
    spawn { reader(q, 2, t) };
    t ! Publish("first");
    t ! Publish("second")
}
