//! Histories in order: each entry moves forward past the entries of greater threads that it is independent of.

use crate::machine::Act;
use crate::replay::Entry;

/// The most entries that are put in order.
pub const MOST_ENTRIES: usize = 4096;

/// The entries, of which no two neighbours are independent with the greater thread first.
pub fn in_order(entries: Vec<Entry>) -> Vec<Entry> {
    let mut ordered: Vec<Entry> = Vec::with_capacity(entries.len());
    // The next numbers of a thread and of a message, before the entry that is looked at.
    let (mut thread, mut message) = (1u32, 0u32);
    for entry in entries {
        let (mut next_thread, mut next_message) = (thread, message);
        let mut place = ordered.len();
        while place > 0 {
            let before = &ordered[place - 1];
            next_thread -= (before.act == Some(Act::Spawn)) as u32;
            next_message -= (before.act == Some(Act::Send)) as u32;
            if entry.thread >= before.thread || !are_independent(before, &entry, next_thread, next_message) {
                break;
            }
            place -= 1;
        }
        thread += (entry.act == Some(Act::Spawn)) as u32;
        message += (entry.act == Some(Act::Send)) as u32;
        ordered.insert(place, entry);
    }
    ordered
}

/// Whether two neighbours of different threads may be exchanged, where the first would make the thread or the message of these numbers.
fn are_independent(first: &Entry, second: &Entry, thread: u32, message: u32) -> bool {
    let (Some(act), Some(other)) = (first.act, second.act) else {
        return ![first.act, second.act].contains(&Some(Act::Free))
            && !(first.act == Some(Act::Spawn) && second.thread == thread);
    };
    let takes_turns = act == other && matches!(act, Act::New | Act::Send | Act::Spawn | Act::Print);
    act != Act::Free
        && other != Act::Free
        && !takes_turns
        && !(act == Act::Spawn && second.thread == thread)
        && !(act == Act::Send && other == Act::Receive(message))
}
