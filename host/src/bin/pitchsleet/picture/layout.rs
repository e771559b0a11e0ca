//! Where boxes stand and edges run, in px.
use super::part::lay;

/// How far parts that don't hang together are from each other, and how wide a row of them may get.
const APART: i32 = 30;
const ROW: i32 = 720;

#[derive(Clone, Copy, Debug, PartialEq)]
pub struct Point {
    pub x: i32,
    pub y: i32,
}

#[derive(Clone, Copy, Debug)]
pub struct Rect {
    pub x: i32,
    pub y: i32,
    pub width: i32,
    pub height: i32,
}

pub struct Layout {
    pub width: i32,
    pub height: i32,
    pub boxes: Vec<Rect>,
    /// The corners of each edge's line, from its from-box's border to its to-box's border. Empty where an edge has no
    /// such box.
    pub routes: Vec<Vec<Point>>,
}

/// Lays out boxes, of which the widths and heights are given, and edges (from, to). The part with box 0 comes first,
/// what doesn't hang together with it below.
pub fn layout(sizes: &[(i32, i32)], edges: &[(usize, usize)]) -> Layout {
    let part_of = parts(sizes.len(), edges);
    let count = part_of.iter().max().map_or(0, |&last| last + 1);
    let mut local = vec![0; sizes.len()];
    let mut members = vec![Vec::new(); count];
    for (number, &part) in part_of.iter().enumerate() {
        local[number] = members[part].len();
        members[part].push(number);
    }
    let mut edges_of = vec![Vec::new(); count];
    for (edge, &(from, to)) in edges.iter().enumerate() {
        if from.max(to) < sizes.len() {
            edges_of[part_of[from]].push((edge, (local[from], local[to])));
        }
    }
    let nowhere = Rect { x: 0, y: 0, width: 0, height: 0 };
    let mut whole =
        Layout { width: 0, height: 0, boxes: vec![nowhere; sizes.len()], routes: vec![Vec::new(); edges.len()] };
    let mut shelf = Shelf { x: 0, y: 0, height: 0 };
    for (numbers, edges) in members.into_iter().zip(edges_of) {
        let sizes: Vec<(i32, i32)> = numbers.iter().map(|&number| sizes[number]).collect();
        let (edges, ends): (Vec<usize>, Vec<(usize, usize)>) = edges.into_iter().unzip();
        let part = lay(&sizes, &ends);
        let (x, y) = shelf.take(part.width, part.height, whole.width);
        whole.put(part, &numbers, &edges, x, y);
    }
    whole
}

/// The number of the part that each box is in. Parts are counted from box 0's on.
fn parts(count: usize, edges: &[(usize, usize)]) -> Vec<usize> {
    let mut joined = vec![Vec::new(); count];
    for &(from, to) in edges.iter().filter(|&&(from, to)| from.max(to) < count) {
        joined[from].push(to);
        joined[to].push(from);
    }
    let mut part_of = vec![usize::MAX; count];
    let mut part = 0;
    for number in 0..count {
        if part_of[number] != usize::MAX {
            continue;
        }
        part_of[number] = part;
        let mut open = vec![number];
        while let Some(at) = open.pop() {
            for &other in &joined[at] {
                if part_of[other] == usize::MAX {
                    part_of[other] = part;
                    open.push(other);
                }
            }
        }
        part += 1;
    }
    part_of
}

/// A row of parts that is filled from the left.
struct Shelf {
    x: i32,
    y: i32,
    height: i32,
}

impl Shelf {
    /// Where the next part stands. What comes first stands alone.
    fn take(&mut self, width: i32, height: i32, widest: i32) -> (i32, i32) {
        let is_first = widest == 0;
        if self.x > 0 && self.x + width > widest.max(ROW) {
            (self.x, self.y, self.height) = (0, self.y + self.height + APART, 0);
        }
        let place = (self.x, self.y);
        if is_first {
            (self.x, self.y, self.height) = (0, height + APART, 0);
        } else {
            (self.x, self.height) = (self.x + width + APART, self.height.max(height));
        }
        place
    }
}

impl Layout {
    /// Moves all so that what is furthest left is at 0, and counts the width.
    pub fn moved_to_left(mut self) -> Self {
        let lefts = self.boxes.iter().map(|one| one.x);
        let points = || self.routes.iter().flatten().map(|point| point.x);
        let left = lefts.chain(points()).min().unwrap_or(0);
        let right = self.boxes.iter().map(|one| one.x + one.width).chain(points()).max().unwrap_or(0);
        self.width = right - left;
        self.boxes.iter_mut().for_each(|one| one.x -= left);
        self.routes.iter_mut().flatten().for_each(|point| point.x -= left);
        self
    }

    /// Takes in a part, whose boxes and edges have these numbers here.
    fn put(&mut self, part: Self, numbers: &[usize], edges: &[usize], x: i32, y: i32) {
        (self.width, self.height) = (self.width.max(x + part.width), self.height.max(y + part.height));
        for (&number, one) in numbers.iter().zip(part.boxes) {
            self.boxes[number] = Rect { x: one.x + x, y: one.y + y, ..one };
        }
        for (&edge, route) in edges.iter().zip(part.routes) {
            self.routes[edge] = route.into_iter().map(|point| Point { x: point.x + x, y: point.y + y }).collect();
        }
    }
}
