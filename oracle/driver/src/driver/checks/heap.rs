//! `heap N`: the heap's rules in plain words against the standard library's `BinaryHeap` under the published order.
use std::cmp::Ordering;
use std::collections::binary_heap::{BinaryHeap, PeekMut};

use crate::driver::rng::Rng;

const MOST_HELD: usize = 128;

/// An entry; the tag tells apart entries of equal sends.
#[derive(Clone, Copy, Debug, PartialEq, Eq)]
struct Entry {
    sends: u64,
    tag: u64,
}

/// The published order: fewer sends is greater.
impl Ord for Entry {
    fn cmp(&self, other: &Self) -> Ordering {
        other.sends.cmp(&self.sends)
    }
}

impl PartialOrd for Entry {
    fn partial_cmp(&self, other: &Self) -> Option<Ordering> {
        Some(self.cmp(other))
    }
}

/// The rules, over an array.
#[derive(Default)]
struct PlainHeap(Vec<Entry>);

impl PlainHeap {
    fn push(&mut self, entry: Entry) {
        self.0.push(entry);
        self.climb(self.0.len() - 1);
    }

    /// An entry climbs to its parent place while it has fewer sends than the parent, strictly.
    fn climb(&mut self, mut place: usize) {
        while place > 0 {
            let parent = (place - 1) / 2;
            if self.0[place].sends >= self.0[parent].sends {
                break;
            }
            self.0.swap(place, parent);
            place = parent;
        }
    }

    /// Of two children the right one unless the left has fewer sends; or the lone left child.
    fn chosen_child(&self, place: usize) -> Option<usize> {
        let (left, right) = (2 * place + 1, 2 * place + 2);
        if left >= self.0.len() {
            return None;
        }
        let take_left = right >= self.0.len() || self.0[left].sends < self.0[right].sends;
        Some(if take_left { left } else { right })
    }

    /// Sinking stops unless the chosen child has fewer sends than the sinking entry.
    fn sink(&mut self, mut place: usize) {
        while let Some(child) = self.chosen_child(place) {
            if self.0[child].sends >= self.0[place].sends {
                break;
            }
            self.0.swap(place, child);
            place = child;
        }
    }

    /// The last entry goes to the top, sinks to the bottom without the stop, then climbs.
    fn remove_top(&mut self) -> Option<Entry> {
        let last = self.0.pop()?;
        if self.0.is_empty() {
            return Some(last);
        }
        let top = std::mem::replace(&mut self.0[0], last);
        let mut place = 0;
        while let Some(child) = self.chosen_child(place) {
            self.0.swap(place, child);
            place = child;
        }
        self.climb(place);
        Some(top)
    }

    /// The top is sent once more and sinks.
    fn send_top(&mut self) {
        if let Some(top) = self.0.first_mut() {
            top.sends += 1;
            self.sink(0);
        }
    }

    /// The top is sent once more and removed.
    fn send_and_remove_top(&mut self) -> Option<Entry> {
        self.0.first_mut()?.sends += 1;
        self.remove_top()
    }
}

/// Runs `count` random sequences on both heaps, comparing the whole arrays after every operation.
pub fn check(count: u64) -> bool {
    let mut rng = Rng::new(128);
    let mut operations = 0;
    let mut longest = 0;
    for sequence in 0..count {
        match run_sequence(&mut rng) {
            Ok(done) => {
                operations += done.operations;
                longest = longest.max(done.longest);
            }
            Err(difference) => {
                println!("heap: sequence {sequence}: {difference}");
                return false;
            }
        }
    }
    println!("heap: {count} sequences of {operations} operations compared with BinaryHeap, up to {longest} entries, 0 differences");
    true
}

struct Done {
    operations: u64,
    longest: usize,
}

fn run_sequence(rng: &mut Rng) -> Result<Done, String> {
    let mut plain = PlainHeap::default();
    let mut std_heap = BinaryHeap::new();
    let length = rng.between(1, 300);
    let push_percent = rng.between(20, 90);
    let spread = *rng.pick(&[1, 2, 4, 23]);
    let mut longest = 0;
    for tag in 0..length {
        let taken = if rng.chance(push_percent) && plain.0.len() < MOST_HELD {
            let sends = rng.below(spread);
            let entry = Entry { sends, tag };
            plain.push(entry);
            std_heap.push(entry);
            (None, None)
        } else if rng.chance(60) {
            plain.send_top();
            if let Some(mut top) = std_heap.peek_mut() {
                top.sends += 1;
            }
            (None, None)
        } else {
            (
                plain.send_and_remove_top(),
                std_send_and_remove(&mut std_heap),
            )
        };
        let std_array: Vec<Entry> = std_heap.iter().copied().collect();
        if taken.0 != taken.1 || plain.0 != std_array {
            return Err(format!(
                "rule {:?} {:?}, BinaryHeap {:?} {std_array:?}",
                taken.0, plain.0, taken.1
            ));
        }
        longest = longest.max(std_array.len());
    }
    Ok(Done {
        operations: length,
        longest,
    })
}

/// As `process_heap_entry` in disseminate.rs drops an entry that was sent often enough.
fn std_send_and_remove(heap: &mut BinaryHeap<Entry>) -> Option<Entry> {
    let mut top = heap.peek_mut()?;
    top.sends += 1;
    Some(PeekMut::pop(top))
}
