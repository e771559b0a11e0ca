//! Where edges touch their boxes.
use super::layers::Layers;
use super::rows::Rows;

/// Of each edge, how far right of its box's middle it leaves, and how far right of its box's middle it enters.
pub struct Ports {
    pub leave: Vec<i32>,
    pub enter: Vec<i32>,
}

/// The least width that a box needs for the edges that leave it and that enter it.
pub fn least_width(leaving: usize, entering: usize) -> i32 {
    let labels = if leaving > 1 { 2 * (LABEL + LEAST_SPREAD) } else { 0 };
    let ports = leaving.max(entering).saturating_sub(1).min(1 << 16) as i32 * LEAST_STEP + 2 * CORNER;
    labels.max(ports)
}

/// How much of a box's border next to a corner stays free.
pub const CORNER: i32 = 14;
/// How near two ports may be.
pub const LEAST_STEP: i32 = 10;
/// What a label beside a port needs, and how far a branch's two ports are from the box's middle.
const LABEL: i32 = 42;
const LEAST_SPREAD: i32 = 16;
const MOST_SPREAD: i32 = 44;
/// How far ports for entering are from each other where there is room.
const STEP: i32 = 24;

pub fn ports(edges: &[(usize, usize)], layers: &Layers, rows: &Rows, widths: &[i32]) -> Ports {
    let ends = |number: usize| {
        let chain = &rows.chains[number];
        let (from, to) = edges[number];
        (chain.first().copied().unwrap_or(to), chain.last().copied().unwrap_or(from))
    };
    let (mut leaving, mut entering) = (vec![Vec::new(); rows.boxes], vec![Vec::new(); rows.boxes]);
    for (number, &(from, to)) in edges.iter().enumerate() {
        let (next, last) = ends(number);
        leaving[from].push((key(rows, from, next, layers.is_back[number]), number));
        entering[to].push((key(rows, to, last, layers.is_back[number]), number));
    }
    let leave = spread(leaving, edges.len(), |number, count| match count {
        2 => 2 * (widths[number] / 2 - LABEL).clamp(LEAST_SPREAD, MOST_SPREAD),
        _ => step(widths[number], count).min(2 * MOST_SPREAD),
    });
    let enter = spread(entering, edges.len(), |number, count| step(widths[number], count).min(STEP));
    Ports { leave, enter }
}

/// How far apart so many ports can be.
fn step(width: i32, count: usize) -> i32 {
    (width - 2 * CORNER) / count.saturating_sub(1).max(1) as i32
}

/// What ports are sorted by: no two edges shall cross next to the box. Edges that run back turn round beside it, the
/// one nearest to it in the innermost turn.
fn key(rows: &Rows, at: usize, next: usize, is_back: bool) -> (u8, isize) {
    let position = rows.position[next] as isize;
    match (is_back, position < rows.position[at] as isize) {
        (false, _) => (1, position),
        (true, true) => (0, -position),
        (true, false) => (2, -position),
    }
}

/// Lays out the ports of each box around its middle.
fn spread(boxes: Vec<Vec<((u8, isize), usize)>>, edges: usize, step: impl Fn(usize, usize) -> i32) -> Vec<i32> {
    let mut offsets = vec![0; edges];
    for (number, mut ports) in boxes.into_iter().enumerate() {
        ports.sort();
        let last = ports.len().saturating_sub(1) as i32;
        let step = step(number, ports.len());
        for (index, (_, edge)) in ports.into_iter().enumerate() {
            offsets[edge] = (2 * index as i32 - last) * step / 2;
        }
    }
    offsets
}
