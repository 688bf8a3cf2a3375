//! The shortest list, by leaving events out, that still shows a difference.

use crate::Event;

pub fn shrink(mut events: Vec<Event>, shows: impl Fn(&[Event]) -> bool) -> Vec<Event> {
    let mut size = events.len();
    while size > 0 {
        let mut start = 0;
        while start < events.len() {
            let end = (start + size).min(events.len());
            let shorter = [&events[..start], &events[end..]].concat();
            match shows(&shorter) {
                true => events = shorter,
                false => start = end,
            }
        }
        size /= 2;
    }
    events
}
