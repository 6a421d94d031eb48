// A chat room: members join and say things, which all members hear.
interface Room { Join(Member!Said), Say(String), Close() }
interface Member { Said(String) }

def room(self: Room?): Unit {
    guard self : *Join.*Say {
        free -> ()
        receive Join(a) from self -> withOne(self, a)
        receive Say(text) from self -> room(self)
    }
}

def withOne(self: Room?, a: Member!): Unit {
    guard self : *Join.*Say {
        free -> ()
        receive Join(b) from self -> withTwo(self, a, b)
        receive Say(text) from self -> a ! Said(text); withOne(self, a)
    }
}

def withTwo(self: Room?, a: Member!, b: Member!): Unit {
    guard self : *Say {
        free -> ()
        receive Say(text) from self -> a ! Said(text); b ! Said(text); withTwo(self, a, b)
    }
}

def member(self: Member?): Unit {
    guard self : *Said {
        free -> ()
        receive Said(text) from self -> print(text); member(self)
    }
}

def main(): Unit {
    let room1 = new[Room] in
    let anna = new[Member] in
    let ben = new[Member] in
    spawn { room(room1) };
    spawn { member(anna) };
    spawn { member(ben) };
    room1 ! Join(anna);
    room1 ! Join(ben);
    room1 ! Say("hello")
}
