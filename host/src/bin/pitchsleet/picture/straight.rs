//! Waypoints moved so that edges have few bends.
use std::ops::RangeInclusive;

use super::columns::{distance, fit};
use super::part::Plan;
use super::ports::{CORNER, LEAST_STEP};

/// How often all edges are gone through: where one moves away, another finds room.
const PASSES: usize = 3;

/// How much nearer to its neighbours a waypoint may come so that its edge is straight.
const NEARER: i32 = 4;

/// How far a box may move so that it stands right under another.
const ALIGN: i32 = 20;

/// How far the exit of one edge among several may move.
const EXIT: i32 = 10;

/// How far edges that enter a box may be from each other.
const STEPS: [i32; 3] = [18, 14, LEAST_STEP];

/// How much more an edge is worth that enters without a bend.
const STRAIGHT: f64 = 1e6;

pub fn straighten(plan: &mut Plan<'_>) {
    align_boxes(plan);
    for _ in 0..PASSES {
        for edge in 0..plan.edges.len() {
            straighten_edge(plan, edge);
        }
    }
    move_exits(plan);
}

/// Moves boxes right under boxes that lead to them, where that isn't far.
fn align_boxes(plan: &mut Plan<'_>) {
    let mut above = vec![Vec::new(); plan.rows.boxes];
    for (edge, &(from, to)) in plan.edges.iter().enumerate() {
        if plan.rows.chains[edge].is_empty() {
            above[to].push(from);
        }
    }
    let boxes = plan.rows.rows.iter().flatten().copied().filter(|&number| number < plan.rows.boxes);
    for number in boxes.collect::<Vec<usize>>() {
        let (least, most) = room(plan, number);
        let middle = plan.middles[number];
        let near = above[number].iter().map(|&from| plan.middles[from]);
        let near = near.filter(|&place| (place - middle).abs() <= ALIGN && least <= place && place <= most);
        plan.middles[number] = near.min_by_key(|&place| (place - middle).abs()).unwrap_or(middle);
    }
}

/// Lets an edge leave its box right over its first waypoint. A box with several keeps them about where they are, since
/// they have labels.
fn move_exits(plan: &mut Plan<'_>) {
    let mut leaving = vec![0; plan.rows.boxes];
    plan.edges.iter().for_each(|&(from, _)| leaving[from] += 1);
    for (edge, &(from, _)) in plan.edges.iter().enumerate().filter(|(edge, _)| !plan.layers.is_back[*edge]) {
        let Some(&first) = plan.rows.chains[edge].first() else {
            continue;
        };
        let offset = plan.middles[first] - plan.middles[from];
        let most = if leaving[from] == 1 { plan.widths[from] / 2 - CORNER } else { EXIT };
        if (offset - plan.ports.leave[edge]).abs() <= most {
            plan.ports.leave[edge] = offset;
        }
    }
}

/// Gives as many waypoints as can be, one after the other, the same place.
fn straighten_edge(plan: &mut Plan<'_>, edge: usize) {
    let rooms: Vec<(i32, i32)> = plan.rows.chains[edge].iter().map(|&number| room(plan, number)).collect();
    let (from, to) = plan.edges[edge];
    let is_back = plan.layers.is_back[edge];
    let mut before = plan.middles[from] + if is_back { 0 } else { plan.ports.leave[edge] };
    let enter = plan.middles[to] + plan.ports.enter[edge];
    let mut start = 0;
    while start < rooms.len() {
        let (mut least, mut most) = rooms[start];
        let mut end = start + 1;
        while end < rooms.len() && least.max(rooms[end].0) <= most.min(rooms[end].1) {
            (least, most) = (least.max(rooms[end].0), most.min(rooms[end].1));
            end += 1;
        }
        let is_free = |place: i32| least <= place && place <= most;
        let place = match end == rooms.len() && !is_back && is_free(enter) && !is_free(before) {
            true => enter,
            false => before.min(most).max(least),
        };
        for &number in &plan.rows.chains[edge][start..end] {
            plan.middles[number] = place;
        }
        (before, start) = (place, end);
    }
}

/// From where to where a waypoint can stand between its neighbours. It may come a little nearer to them than it would
/// by itself.
fn room(plan: &Plan<'_>, number: usize) -> (i32, i32) {
    let row = &plan.rows.rows[plan.rows.layer[number]];
    let position = plan.rows.position[number];
    let left = position.checked_sub(1).map(|left| row[left]);
    let least = left.map(|left| plan.middles[left] + distance(&plan.rows, &plan.widths, left, number) - NEARER);
    let right = row.get(position + 1);
    let most = right.map(|&right| plan.middles[right] - distance(&plan.rows, &plan.widths, number, right) + NEARER);
    (least.unwrap_or(i32::MIN / 2), most.unwrap_or(i32::MAX / 2))
}

/// Where each edge enters its box: straight from above if that is over the box.
pub fn entries(plan: &Plan<'_>) -> Vec<i32> {
    let mut entering = vec![Vec::new(); plan.rows.boxes];
    for (edge, &(_, to)) in plan.edges.iter().enumerate() {
        entering[to].push(edge);
    }
    let mut entries = vec![0; plan.edges.len()];
    for (number, mut edges) in entering.into_iter().enumerate() {
        edges.sort_by_key(|&edge| plan.ports.enter[edge]);
        let (middle, half) = (plan.middles[number], plan.widths[number] / 2 - CORNER);
        let places = STEPS.into_iter().map(|step| {
            let step = step.min(2 * half / edges.len().saturating_sub(1).max(1) as i32).max(LEAST_STEP);
            fit_entries(plan, &edges, middle - half..=middle + half, step)
        });
        // The widest of the steps that let the most edges be straight.
        let places = places.min_by_key(|(_, bent)| *bent).map_or(Vec::new(), |(places, _)| places);
        edges.iter().zip(places).for_each(|(&edge, place)| entries[edge] = place);
    }
    entries
}

/// The entries on a box's border with this step between them, and how many edges could enter straight and don't.
fn fit_entries(plan: &Plan<'_>, edges: &[usize], border: RangeInclusive<i32>, step: i32) -> (Vec<i32>, usize) {
    let middle = (border.start() + border.end()) / 2;
    let straight = straight(plan, edges, &border, step);
    let wish = |(&edge, straight): (&usize, &Option<i32>)| match *straight {
        Some(place) => (f64::from(place), STRAIGHT),
        None => (f64::from(middle + plan.ports.enter[edge]), 1.0),
    };
    let wishes: Vec<(f64, f64)> = edges.iter().zip(&straight).map(wish).collect();
    let bounds = (f64::from(*border.start()), f64::from(*border.end()));
    let places = fit(&wishes, &vec![f64::from(step); edges.len()], bounds);
    let places: Vec<i32> = places.into_iter().map(|place| place.round() as i32).collect();
    let bent = edges
        .iter()
        .zip(&places)
        .filter(|&(&edge, &place)| above(plan, edge).is_some_and(|above| above != place && border.contains(&above)));
    let bent = bent.count();
    (places, bent)
}

/// Where edges into the same box, from left to right, can enter it straight from above. Of two that are too near for
/// that, one that comes from a box does.
fn straight(plan: &Plan<'_>, edges: &[usize], border: &RangeInclusive<i32>, step: i32) -> Vec<Option<i32>> {
    let above = |&edge: &usize| above(plan, edge).filter(|place| border.contains(place));
    let mut straight: Vec<Option<i32>> = edges.iter().map(above).collect();
    let mut last: Option<usize> = None;
    for index in 0..edges.len() {
        let Some(place) = straight[index] else {
            continue;
        };
        let before = last.filter(|&last| straight[last].is_some_and(|before| place < before + step));
        match before {
            Some(before) if plan.rows.chains[edges[index]].is_empty() => straight[before] = None,
            Some(_) => {
                straight[index] = None;
                continue;
            }
            None => {}
        }
        last = Some(index);
    }
    straight
}

/// Where an edge that doesn't run back comes from, in the row above its to-box.
fn above(plan: &Plan<'_>, edge: usize) -> Option<i32> {
    let from = plan.middles[plan.edges[edge].0] + plan.ports.leave[edge];
    let place = plan.rows.chains[edge].last().map_or(from, |&last| plan.middles[last]);
    (!plan.layers.is_back[edge]).then_some(place)
}
