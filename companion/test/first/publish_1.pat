// Publish and subscribe: subscribers are told each piece of news.
interface Topic { Subscribe(Reader!*News), Publish(String) }
interface Reader { News(String) }

def topic(self: Topic?): Unit {
    guard self : *(Subscribe + Publish) {
        free -> ()
        receive Subscribe(reader) from self -> subscribed(self, reader)
        receive Publish(text) from self -> topic(self)
    }
}

def subscribed(self: Topic?, reader: Reader!): Unit {
    guard self : *(Subscribe + Publish) {
        free -> ()
        receive Subscribe(other) from self -> reader ! News("another reader"); subscribed(self, other)
        receive Publish(text) from self -> reader ! News(text); subscribed(self, reader)
    }
}

def reader(self: Reader?, topic: Topic!): Unit {
    topic ! Subscribe(self);
    guard self : *News {
        free -> ()
        receive News(text) from self -> print(text); reader(self, topic)
    }
}

def main(): Unit {
    let t = new[Topic] in
    let r = new[Reader] in
    spawn { topic(t) };
    spawn { reader(r, t) };
    t ! Publish("first");
    t ! Publish("second")
}
