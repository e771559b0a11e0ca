//! Where boxes and waypoints stand from left to right, in px.
use super::layers::Layers;
use super::ports::Ports;
use super::rows::Rows;

/// How often all rows are fitted to the rows above and below, first in turn, then to both at once.
const SWEEPS: usize = 8;

/// When a sweep moves nothing further than this, no more are needed.
const SETTLED: f64 = 0.25;

/// How much a link pulls. Boxes shall stand under boxes, and waypoints straight under waypoints; an edge can bend
/// between the two.
const BOX_TO_BOX: f64 = 1.0;
const BOX_TO_WAYPOINT: f64 = 1e-6;
const WAYPOINT_TO_WAYPOINT: f64 = 30.0;
/// What holds a number in place where no link does.
const STAY: f64 = 1e-9;

const MANY: usize = 6;

/// A number in a neighbouring row, how far right of it this one would stand, and how much it pulls.
#[derive(Clone, Copy)]
struct Link {
    other: usize,
    offset: f64,
    pull: f64,
}

/// The middle of each box and waypoint.
pub fn columns(edges: &[(usize, usize)], layers: &Layers, rows: &Rows, ports: &Ports, widths: &[i32]) -> Vec<i32> {
    let (up, down) = links(edges, layers, rows, ports);
    let gap = |two: &[usize]| f64::from(distance(rows, widths, two[0], two[1]));
    let gaps = rows.rows.iter().map(|row| row.windows(2).map(gap).collect()).collect();
    let mut columns = Columns { rows, gaps, middles: vec![0.0; rows.layer.len()] };
    for [falling, rising] in [[&[&up][..], &[&down]], [&[&up, &down], &[&up, &down]]] {
        for _ in 0..SWEEPS {
            let fell = columns.sweep(0..rows.rows.len(), falling);
            let rose = columns.sweep((0..rows.rows.len()).rev(), rising);
            if fell.max(rose) < SETTLED {
                break;
            }
        }
    }
    rounded(rows, widths, &columns.middles)
}

struct Columns<'a> {
    rows: &'a Rows,
    /// How far the middles of neighbours in each row are at least from each other.
    gaps: Vec<Vec<f64>>,
    middles: Vec<f64>,
}

impl Columns<'_> {
    /// Fits rows one after the other to the links on these sides, and says how far a number moved at most.
    fn sweep(&mut self, rows: impl Iterator<Item = usize>, sides: &[&Vec<Vec<Link>>]) -> f64 {
        let mut moved: f64 = 0.0;
        for row in rows {
            let numbers = &self.rows.rows[row];
            let wishes: Vec<(f64, f64)> = numbers.iter().map(|&number| wish(&self.middles, number, sides)).collect();
            let fitted = fit(&wishes, &self.gaps[row], (f64::NEG_INFINITY, f64::INFINITY));
            for (&number, middle) in numbers.iter().zip(fitted) {
                moved = moved.max((middle - self.middles[number]).abs());
                self.middles[number] = middle;
            }
        }
        moved
    }
}

/// Whole px. Rounding mustn't bring neighbours nearer than they may be.
fn rounded(rows: &Rows, widths: &[i32], middles: &[f64]) -> Vec<i32> {
    let mut rounded: Vec<i32> = middles.iter().map(|middle| middle.round() as i32).collect();
    for two in rows.rows.iter().flat_map(|row| row.windows(2)) {
        rounded[two[1]] = rounded[two[1]].max(rounded[two[0]] + distance(rows, widths, two[0], two[1]));
    }
    rounded
}

/// How far the middles of two neighbours in a row are at least from each other.
pub fn distance(rows: &Rows, widths: &[i32], left: usize, right: usize) -> i32 {
    let half = |number: usize| if number < rows.boxes { widths[number] / 2 } else { 0 };
    let gap = match (left < rows.boxes, right < rows.boxes) {
        (true, true) => 36,
        (false, false) => 14,
        _ => 22,
    };
    half(left) + gap + half(right)
}

fn links(edges: &[(usize, usize)], layers: &Layers, rows: &Rows, ports: &Ports) -> (Vec<Vec<Link>>, Vec<Vec<Link>>) {
    let (mut up, mut down) = (vec![Vec::new(); rows.layer.len()], vec![Vec::new(); rows.layer.len()]);
    let mut link = |above: usize, below: usize, offset: f64, pull: f64| {
        up[below].push(Link { other: above, offset, pull });
        down[above].push(Link { other: below, offset: -offset, pull });
    };
    let mut entering = vec![0; rows.boxes];
    edges.iter().for_each(|&(_, to)| entering[to] += 1);
    for (number, &(from, to)) in edges.iter().enumerate() {
        let chain = &rows.chains[number];
        for two in chain.windows(2) {
            let (above, below) = if layers.is_back[number] { (two[1], two[0]) } else { (two[0], two[1]) };
            link(above, below, 0.0, WAYPOINT_TO_WAYPOINT);
        }
        match (chain.first(), chain.last()) {
            _ if layers.is_back[number] => {}
            (Some(&first), Some(&last)) => {
                link(from, first, f64::from(ports.leave[number]), BOX_TO_WAYPOINT);
                link(last, to, f64::from(-ports.enter[number]), BOX_TO_WAYPOINT);
            }
            // Where many edges enter, their places tell more than the box's middle.
            _ if entering[to] > MANY => link(from, to, f64::from(-ports.enter[number]), BOX_TO_BOX),
            _ => link(from, to, 0.0, BOX_TO_BOX),
        }
    }
    (up, down)
}

/// Where a number would stand by its links, and how much they pull in all.
fn wish(middles: &[f64], number: usize, sides: &[&Vec<Vec<Link>>]) -> (f64, f64) {
    let (mut sum, mut pull) = (middles[number] * STAY, STAY);
    for link in sides.iter().flat_map(|side| &side[number]) {
        sum += (middles[link.other] + link.offset) * link.pull;
        pull += link.pull;
    }
    (sum / pull, pull)
}

/// Positions from left to right, with at least the gaps between them and within the bounds, so that the squares of
/// their distances from the wishes are least. A wish is a position and a weight.
pub fn fit(wishes: &[(f64, f64)], gaps: &[f64], bounds: (f64, f64)) -> Vec<f64> {
    // With the gaps taken away the positions only mustn't fall: neighbours that would are held together.
    let mut shift = 0.0;
    let mut shifts = Vec::with_capacity(wishes.len());
    let mut groups: Vec<(f64, f64, usize)> = Vec::new();
    for (index, &(at, weight)) in wishes.iter().enumerate() {
        shift += if index == 0 { 0.0 } else { gaps[index - 1] };
        shifts.push(shift);
        let mut group = ((at - shift) * weight, weight, 1);
        while let Some(before) = groups.pop_if(|before| before.0 * group.1 > group.0 * before.1) {
            group = (before.0 + group.0, before.1 + group.1, before.2 + group.2);
        }
        groups.push(group);
    }
    let (least, most) = (bounds.0, (bounds.1 - shift).max(bounds.0));
    let level = groups.iter().flat_map(|&(sum, weight, count)| std::iter::repeat_n(sum / weight, count));
    level.zip(shifts).map(|(level, shift)| level.clamp(least, most) + shift).collect()
}
