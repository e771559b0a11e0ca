//! The room between two rows: which edge runs sideways at which height.

/// Where an end of a crosspiece leads.
#[derive(Clone, Copy, PartialEq)]
pub enum End {
    Up,
    Down,
}

/// An edge's piece between two rows: from one place to another, each left up or down.
#[derive(Clone, Copy)]
pub struct Crosspiece {
    pub ends: [(i32, End); 2],
}

impl Crosspiece {
    /// Whether it runs sideways at all.
    pub fn is_bent(&self) -> bool {
        self.ends[0].0 != self.ends[1].0
    }

    fn left(&self) -> i32 {
        self.ends[0].0.min(self.ends[1].0)
    }

    fn right(&self) -> i32 {
        self.ends[0].0.max(self.ends[1].0)
    }

    /// How many ends of the other that lead one way meet this one's level part. Where they would run on top of each
    /// other it counts for many.
    fn met_by(&self, other: &Self, way: End) -> i32 {
        let meets = |&(x, end): &(i32, End)| match end == way && (self.left()..=self.right()).contains(&x) {
            false => 0,
            true if x == self.left() || x == self.right() => 100,
            true => 1,
        };
        other.ends.iter().map(meets).sum()
    }

    /// How often two cross when this one runs above the other.
    fn crossings_above(&self, other: &Self) -> i32 {
        self.met_by(other, End::Up) + other.met_by(self, End::Down)
    }

    fn is_beside(&self, other: &Self) -> bool {
        self.right() + APART < other.left() || other.right() + APART < self.left()
    }
}

/// How far two that run at the same height are at least from each other.
const APART: i32 = 10;

/// The height of each, counted from 0 at the top, and how many heights there are.
pub fn tracks(pieces: &[Crosspiece]) -> (Vec<usize>, usize) {
    let mut tracks = vec![0; pieces.len()];
    let mut placed: Vec<usize> = Vec::new();
    for number in order(pieces) {
        let over = placed.iter().filter(|&&other| !pieces[number].is_beside(&pieces[other]));
        tracks[number] = over.map(|&other| tracks[other] + 1).max().unwrap_or(0);
        placed.push(number);
    }
    let count = placed.iter().map(|&number| tracks[number] + 1).max().unwrap_or(0);
    (tracks, count)
}

/// From the top down, so that few cross. Those that don't run sideways are left out.
fn order(pieces: &[Crosspiece]) -> Vec<usize> {
    let mut left: Vec<usize> = (0..pieces.len()).filter(|&number| pieces[number].is_bent()).collect();
    let gain = |one: usize, other: usize| {
        pieces[other].crossings_above(&pieces[one]) - pieces[one].crossings_above(&pieces[other])
    };
    // What is gained when one runs above all others that are left.
    let mut gains = vec![0; pieces.len()];
    for &one in &left {
        gains[one] = left.iter().map(|&other| gain(one, other)).sum();
    }
    let mut order = Vec::with_capacity(left.len());
    while let Some(at) = (0..left.len()).max_by_key(|&at| (gains[left[at]], std::cmp::Reverse(left[at]))) {
        let top = left.remove(at);
        left.iter().for_each(|&other| gains[other] -= gain(other, top));
        order.push(top);
    }
    swap_while_better(&mut order, gain);
    order
}

fn swap_while_better(order: &mut [usize], gain: impl Fn(usize, usize) -> i32) {
    for _ in 0..order.len() {
        let mut is_better = false;
        for at in 1..order.len() {
            if gain(order[at], order[at - 1]) > 0 {
                order.swap(at - 1, at);
                is_better = true;
            }
        }
        if !is_better {
            break;
        }
    }
}
