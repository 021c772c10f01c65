//! Loads of older values.
#![forbid(unsafe_code)]

use crate::log::{Entry, Event};

/// Orders a log whose loads may give what a count had before, as the memory model admits. Such a load goes where the
/// count last had that value, after all else that its thread did before; its call begins there. Returns how many there
/// are.
pub fn in_order(entries: Vec<Entry>) -> (Vec<Entry>, usize) {
    let (mut ordered, mut older) = (Vec::with_capacity(entries.len()), 0);
    for entry in entries {
        let place = place_of(&ordered, entry);
        older += usize::from(place.is_some());
        let place = place.unwrap_or(ordered.len());
        let begun = ordered[place..].iter().position(|it: &Entry| it.thread == entry.thread);
        let begin = begun.map(|i| ordered.remove(place + i));
        ordered.splice(place..place, begin.into_iter().chain([entry]));
    }
    (ordered, older)
}

/// The place of a load of an older value.
fn place_of(before: &[Entry], Entry { thread, event }: Entry) -> Option<usize> {
    let Event::Load(count, value) = event else { return None };
    let own = before.iter().rposition(|it| it.thread == thread && !matches!(it.event, Event::Begin(_)));
    let rest = before.iter().enumerate().skip(own.map_or(0, |i| i + 1));
    let changes = rest.rev().filter_map(|(i, it)| match it.event {
        Event::Change(at, old, new) if at == count => Some((i, old, new)),
        _ => None,
    });
    let mut changes = changes.peekable();
    // After 0 the place is that of another count.
    let (.., now) = *changes.peek()?;
    if [0, value].contains(&now) { None } else { changes.find(|it| it.1 == value).map(|it| it.0) }
}
