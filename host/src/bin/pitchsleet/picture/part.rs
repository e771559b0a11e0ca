//! A part of a picture whose boxes hang together.
use super::columns::columns;
use super::layers::{Layers, layers};
use super::layout::{Layout, Point, Rect};
use super::ports::{Ports, least_width, ports};
use super::rows::{Rows, rows};
use super::straight::{entries, straighten};
use super::tracks::{Crosspiece, End, tracks};

/// Between two rows, from above: room for labels, for the edges that run sideways, and for arrow heads.
const LABELS: i32 = 20;
const TRACK: i32 = 10;
const HEADS: i32 = 18;

/// What is known before heights are.
pub struct Plan<'a> {
    pub edges: &'a [(usize, usize)],
    pub layers: Layers,
    pub rows: Rows,
    pub ports: Ports,
    /// The width of each box. All are even.
    pub widths: Vec<i32>,
    /// The middle of each box and waypoint, from left to right.
    pub middles: Vec<i32>,
}

/// Lays out boxes, of which the widths and heights are given, and edges (from, to).
pub fn lay(sizes: &[(i32, i32)], edges: &[(usize, usize)]) -> Layout {
    let plan = plan(sizes, edges);
    let enter = entries(&plan);
    let mut between = vec![Vec::new(); plan.rows.rows.len() + 1];
    let pieces: Vec<Vec<(usize, usize)>> = (0..edges.len())
        .map(|edge| {
            let push = |(gap, piece): (usize, Crosspiece)| {
                between[gap].push(piece);
                (gap, between[gap].len() - 1)
            };
            crosspieces(&plan, edge, enter[edge]).into_iter().map(push).collect()
        })
        .collect();
    let heights = Heights::new(&plan, sizes, &between);
    let rect = |(number, &(_, height)): (usize, &(i32, i32))| {
        let width = plan.widths[number];
        Rect { x: plan.middles[number] - width / 2, y: heights.rows[plan.rows.layer[number]], width, height }
    };
    let boxes: Vec<Rect> = sizes.iter().enumerate().map(rect).collect();
    let route = |edge: usize| {
        let ((from, to), leave) = (edges[edge], leave(&plan, edge));
        let mut route = vec![Point { x: leave, y: boxes[from].y + boxes[from].height }];
        for &(gap, index) in pieces[edge].iter().filter(|&&(gap, index)| between[gap][index].is_bent()) {
            let y = heights.tracks[gap][index];
            route.extend(between[gap][index].ends.map(|(x, _)| Point { x, y }));
        }
        route.push(Point { x: enter[edge], y: boxes[to].y });
        route
    };
    let routes = (0..edges.len()).map(route).collect();
    Layout { width: 0, height: heights.all, boxes, routes }.moved_to_left()
}

fn plan<'a>(sizes: &[(i32, i32)], edges: &'a [(usize, usize)]) -> Plan<'a> {
    let (mut leaving, mut entering) = (vec![0; sizes.len()], vec![0; sizes.len()]);
    for &(from, to) in edges {
        leaving[from] += 1;
        entering[to] += 1;
    }
    let least = leaving.into_iter().zip(entering).map(|(leaving, entering)| least_width(leaving, entering));
    let widths: Vec<i32> = sizes.iter().zip(least).map(|(&(width, _), least)| (width.max(least) + 1) & !1).collect();
    let layers = layers(sizes.len(), edges);
    let rows = rows(edges, &layers);
    let ports = ports(edges, &layers, &rows, &widths);
    let middles = columns(edges, &layers, &rows, &ports, &widths);
    let mut plan = Plan { edges, layers, rows, ports, widths, middles };
    straighten(&mut plan);
    plan
}

fn leave(plan: &Plan<'_>, edge: usize) -> i32 {
    plan.middles[plan.edges[edge].0] + plan.ports.leave[edge]
}

/// An edge's pieces between rows, each with the number of the row under it.
fn crosspieces(plan: &Plan<'_>, edge: usize, enter: i32) -> Vec<(usize, Crosspiece)> {
    let (from, to) = plan.edges[edge];
    let (start, end) = (plan.rows.layer[from], plan.rows.layer[to]);
    let chain = plan.rows.chains[edge].iter().map(|&number| plan.middles[number]);
    let places: Vec<i32> = [leave(plan, edge)].into_iter().chain(chain).chain([enter]).collect();
    let two = places.windows(2).enumerate().map(|(index, two)| (index, two[0], two[1]));
    if !plan.layers.is_back[edge] {
        let piece = |(index, x, next)| (start + 1 + index, Crosspiece { ends: [(x, End::Up), (next, End::Down)] });
        return two.map(piece).collect();
    }
    let piece = |(index, x, next): (usize, i32, i32)| {
        let ends = match index {
            0 => [(x, End::Up), (next, End::Up)],
            index if start + 1 - index == end => [(x, End::Down), (next, End::Down)],
            _ => [(x, End::Down), (next, End::Up)],
        };
        (start + 1 - index, Crosspiece { ends })
    };
    two.map(piece).collect()
}

struct Heights {
    /// Where each row begins.
    rows: Vec<i32>,
    /// How high each piece between rows runs.
    tracks: Vec<Vec<i32>>,
    all: i32,
}

impl Heights {
    fn new(plan: &Plan<'_>, sizes: &[(i32, i32)], between: &[Vec<Crosspiece>]) -> Self {
        let mut heights = Self { rows: Vec::new(), tracks: Vec::new(), all: 0 };
        for (gap, pieces) in between.iter().enumerate() {
            let row = plan.rows.rows.get(gap);
            let (numbers, count) = tracks(pieces);
            let (is_outer, labels) = (gap == 0 || row.is_none(), if gap == 0 { TRACK } else { LABELS });
            heights.tracks.push(numbers.iter().map(|&track| heights.all + labels + track as i32 * TRACK).collect());
            if !is_outer || count > 0 {
                heights.all += labels + count as i32 * TRACK + if row.is_some() { HEADS } else { 0 };
            }
            heights.rows.push(heights.all);
            let boxes = row.into_iter().flatten().filter(|&&number| number < plan.rows.boxes);
            heights.all += boxes.map(|&number| sizes[number].1).max().unwrap_or(0);
        }
        heights
    }
}
