//! What stands in each layer, from left to right: boxes, and waypoints where an edge passes a layer.
use std::ops::Range;

use super::layers::Layers;

/// How often the order is looked for from the top down and back up.
const SWEEPS: usize = 8;

/// Boxes have the first numbers, waypoints the numbers from there on.
pub struct Rows {
    pub boxes: usize,
    /// The layer of each box and waypoint.
    pub layer: Vec<usize>,
    /// The waypoints of each edge, from its from-box on. An edge that runs back has one in each layer from its from-
    /// box's up to its to-box's, both included.
    pub chains: Vec<Vec<usize>>,
    /// The numbers in each layer, from left to right.
    pub rows: Vec<Vec<usize>>,
    /// The position of each number in its row.
    pub position: Vec<usize>,
}

pub fn rows(edges: &[(usize, usize)], layers: &Layers) -> Rows {
    let mut rows = waypoints(edges, layers);
    let mut links = links(edges, layers, &rows);
    rows.start(&links.down);
    rows.uncross(&links);
    for edge in inner_first(edges, layers) {
        rows.insert_back(edge, edges, &mut links);
    }
    rows
}

/// All numbers, with the rows still empty.
fn waypoints(edges: &[(usize, usize)], layers: &Layers) -> Rows {
    let mut layer = layers.of_box.clone();
    let boxes = layer.len();
    let height = layer.iter().max().map_or(0, |&lowest| lowest + 1);
    let chains = edges.iter().zip(&layers.is_back).map(|(&(from, to), &is_back)| {
        let first = layer.len();
        let (start, end) = (layer[from], layer[to]);
        if is_back {
            layer.extend((end..=start).rev())
        } else {
            layer.extend(start + 1..end)
        }
        (first..layer.len()).collect()
    });
    let chains = chains.collect();
    let position = vec![0; layer.len()];
    Rows { boxes, layer, chains, rows: vec![Vec::new(); height], position }
}

/// What each number is joined to in the row above and in the row below.
struct Links {
    up: Vec<Vec<usize>>,
    down: Vec<Vec<usize>>,
}

impl Links {
    fn join(&mut self, above: usize, below: usize) {
        self.down[above].push(below);
        self.up[below].push(above);
    }
}

/// The links of the edges that don't run back.
fn links(edges: &[(usize, usize)], layers: &Layers, rows: &Rows) -> Links {
    let count = rows.layer.len();
    let mut links = Links { up: vec![Vec::new(); count], down: vec![Vec::new(); count] };
    for (number, &(from, to)) in edges.iter().enumerate().filter(|(number, _)| !layers.is_back[*number]) {
        let mut above = from;
        for &below in rows.chains[number].iter().chain([&to]) {
            links.join(above, below);
            above = below;
        }
    }
    links
}

/// The edges that run back, those of inner loops before those of outer ones.
fn inner_first(edges: &[(usize, usize)], layers: &Layers) -> Vec<usize> {
    let mut back: Vec<usize> = (0..edges.len()).filter(|&edge| layers.is_back[edge]).collect();
    back.sort_by_key(|&edge| layers.of_box[edges[edge].0] - layers.of_box[edges[edge].1]);
    back
}

impl Rows {
    /// A first order: what is reached from further left, or by an earlier edge, stands further left.
    fn start(&mut self, down: &[Vec<usize>]) {
        let mut is_placed = vec![false; self.layer.len()];
        let mut alone = vec![Vec::new(); self.rows.len()];
        let mut is_reached = vec![false; self.layer.len()];
        down.iter().flatten().for_each(|&below| is_reached[below] = true);
        for number in (0..self.boxes).filter(|&number| !is_reached[number]) {
            alone[self.layer[number]].push(number);
        }
        let mut above: Vec<usize> = Vec::new();
        for (row, alone) in self.rows.iter_mut().zip(alone) {
            for &below in above.iter().flat_map(|&number| &down[number]) {
                if !is_placed[below] {
                    is_placed[below] = true;
                    row.push(below);
                }
            }
            row.extend(alone);
            above.clone_from(row);
        }
        self.count_positions(0..self.rows.len());
    }

    /// Moves numbers to the middle of what they are joined to, down and up again, and keeps the order with the fewest
    /// crossings.
    fn uncross(&mut self, links: &Links) {
        let (mut best, mut fewest) = (self.rows.clone(), self.crossings(&links.down));
        for _ in 0..SWEEPS {
            if fewest == 0 {
                break;
            }
            (1..self.rows.len()).for_each(|row| self.settle(row, &links.up));
            (0..self.rows.len().saturating_sub(1)).rev().for_each(|row| self.settle(row, &links.down));
            let crossings = self.crossings(&links.down);
            if crossings < fewest {
                (best, fewest) = (self.rows.clone(), crossings);
            }
        }
        self.rows = best;
        self.count_positions(0..self.rows.len());
    }

    fn settle(&mut self, row: usize, neighbours: &[Vec<usize>]) {
        let middle = |number: usize| match neighbours[number].len() {
            0 => self.position[number] as f64,
            count => {
                let sum: usize = neighbours[number].iter().map(|&other| self.position[other]).sum();
                sum as f64 / count as f64
            }
        };
        let mut keyed: Vec<(f64, usize)> = self.rows[row].iter().map(|&number| (middle(number), number)).collect();
        keyed.sort_by(|one, other| one.0.total_cmp(&other.0));
        for (position, (number, (_, moved))) in self.rows[row].iter_mut().zip(keyed).enumerate() {
            *number = moved;
            self.position[moved] = position;
        }
    }

    /// How often edges cross between neighbouring rows.
    fn crossings(&self, down: &[Vec<usize>]) -> usize {
        let mut count = 0;
        for (row, below) in self.rows.iter().zip(self.rows.iter().skip(1)) {
            let mut seen = Counts::new(below.len());
            for &number in row {
                let ends: Vec<usize> = down[number].iter().map(|&other| self.position[other]).collect();
                count += ends.iter().map(|&end| seen.right_of(end)).sum::<usize>();
                ends.iter().for_each(|&end| seen.add(end));
            }
        }
        count
    }

    fn count_positions(&mut self, rows: Range<usize>) {
        for row in &self.rows[rows] {
            row.iter().enumerate().for_each(|(position, &number)| self.position[number] = position);
        }
    }

    /// Leads an edge that runs back along the side of its loop where it crosses less.
    fn insert_back(&mut self, edge: usize, edges: &[(usize, usize)], links: &mut Links) {
        let (from, to) = edges[edge];
        let is_inside = members(edges, from, to);
        let mut is_member = is_inside.clone();
        is_member.resize(self.layer.len(), false);
        for (chain, _) in self.chains.iter().zip(edges).filter(|(_, ends)| is_inside[ends.0] && is_inside[ends.1]) {
            chain.iter().for_each(|&number| is_member[number] = true);
        }
        let rows = &self.rows[self.layer[to]..=self.layer[from]];
        let first = |row: &Vec<usize>| row.iter().position(|&number| is_member[number]).unwrap_or(row.len());
        let behind =
            |row: &Vec<usize>| row.iter().rposition(|&number| is_member[number]).map_or(row.len(), |last| last + 1);
        let (left, right): (Vec<usize>, Vec<usize>) = rows.iter().map(|row| (first(row), behind(row))).unzip();
        let is_first = edges.iter().position(|&(other, _)| other == from) == Some(edge);
        let (mut places, other) = if is_first { (left, right) } else { (right, left) };
        let crossed = self.crossed(from, to, &places, links);
        if crossed > 0 && self.crossed(from, to, &other, links) < crossed {
            places = other;
        }
        for (&number, place) in self.chains[edge].iter().rev().zip(places) {
            self.rows[self.layer[number]].insert(place, number);
        }
        for two in self.chains[edge].windows(2) {
            links.join(two[1], two[0]);
        }
        self.count_positions(self.layer[to]..self.layer[from] + 1);
    }

    /// What an edge that runs back would cross if it ran through the rows at these positions.
    fn crossed(&self, from: usize, to: usize, places: &[usize], links: &Links) -> usize {
        let (top, bottom) = (self.layer[to], self.layer[from]);
        let beside = |number: usize, row: usize| {
            let (position, place) = (self.position[number], places[row - top]);
            let passed = if place <= position { place..position } else { position + 1..place };
            self.rows[row][passed].iter().copied()
        };
        let under: usize = beside(from, bottom).map(|number| links.down[number].len()).sum();
        let over: usize = beside(to, top).map(|number| links.up[number].len()).sum();
        let mut along = 0;
        for (row, two) in self.rows[top..=bottom].iter().zip(places.windows(2)) {
            let ends = row.iter().flat_map(|&above| links.down[above].iter().map(move |&below| (above, below)));
            let is_left = |number: usize, place: usize| self.position[number] < place;
            along += ends.filter(|&(above, below)| is_left(above, two[0]) != is_left(below, two[1])).count();
        }
        under + over + along
    }
}

/// The boxes of the loop that an edge closes: its two ends, and all that leads to its start without passing its end.
fn members(edges: &[(usize, usize)], from: usize, to: usize) -> Vec<bool> {
    let count = edges.iter().map(|&(from, to)| from.max(to) + 1).max().unwrap_or(0);
    let mut entering = vec![Vec::new(); count];
    edges.iter().for_each(|&(from, to)| entering[to].push(from));
    let mut is_inside = vec![false; count];
    (is_inside[from], is_inside[to]) = (true, true);
    let mut open = if from == to { Vec::new() } else { vec![from] };
    while let Some(at) = open.pop() {
        for &before in &entering[at] {
            if !is_inside[before] {
                is_inside[before] = true;
                open.push(before);
            }
        }
    }
    is_inside
}

/// How many ends stand at each position, summed so that those on the right of one are soon counted.
struct Counts {
    /// A Fenwick tree over the positions counted from the right, from 1.
    sums: Vec<usize>,
}

impl Counts {
    fn new(positions: usize) -> Self {
        Self { sums: vec![0; positions + 1] }
    }

    fn add(&mut self, position: usize) {
        let mut at = self.sums.len() - 1 - position;
        while at < self.sums.len() {
            self.sums[at] += 1;
            at += at & at.wrapping_neg();
        }
    }

    fn right_of(&self, position: usize) -> usize {
        let mut at = self.sums.len() - 2 - position;
        let mut sum = 0;
        while at > 0 {
            sum += self.sums[at];
            at &= at - 1;
        }
        sum
    }
}
