//! Stand-in for the crate `priority_queue`: an item is held once, and `pop` takes one of the highest priority.
//!
//! Among items of equal priority it takes the one that was pushed first; the crate itself promises no order there. The
//! Rust's priorities are a block's place in the walk, so two are equal only where a function has a block that the walk
//! never meets, and such functions are left out of the comparison.
#[derive(Clone, Debug)]
pub struct PriorityQueue<I, P> {
    items: Vec<(I, P)>,
}

impl<I: PartialEq, P: Ord> PriorityQueue<I, P> {
    pub fn new() -> Self {
        Self { items: Vec::new() }
    }

    /// Enters an item, or gives the one that is there another priority and answers the old one.
    pub fn push(&mut self, item: I, priority: P) -> Option<P> {
        for (held, old) in &mut self.items {
            if *held == item {
                return Some(std::mem::replace(old, priority));
            }
        }
        self.items.push((item, priority));
        None
    }

    pub fn pop(&mut self) -> Option<(I, P)> {
        let mut best = 0;
        for at in 1..self.items.len() {
            if self.items[at].1 > self.items[best].1 {
                best = at;
            }
        }
        if self.items.is_empty() {
            None
        } else {
            Some(self.items.remove(best))
        }
    }

    pub fn clear(&mut self) {
        self.items.clear();
    }
}

impl<I: PartialEq, P: Ord> Default for PriorityQueue<I, P> {
    fn default() -> Self {
        Self::new()
    }
}
