//! Blocks and edges as a drawing that a browser shows: boxes in layers from the first one down, edges as lines with
//! right angles between them.
mod columns;
mod layers;
mod layout;
mod part;
mod ports;
mod rows;
mod straight;
mod tracks;

use crate::human::counted;
use crate::listing::push;
use crate::markup::Escaped;
use layout::{Point, Rect, layout};

pub struct Picture {
    pub boxes: Vec<PictureBox>,
    pub edges: Vec<PictureEdge>,
}

pub struct PictureBox {
    /// What stands in the box. The first line is its title.
    pub lines: Vec<String>,
    pub is_dead: bool,
    pub has_warning: bool,
}

/// An edge, by the indexes of its boxes. One without such boxes isn't drawn.
pub struct PictureEdge {
    pub from: usize,
    pub to: usize,
    pub way: Way,
}

/// When an edge is taken.
#[derive(Clone, Copy, Debug, PartialEq)]
pub enum Way {
    Only,
    True,
    False,
}

/// What a page that shows pictures needs in its style.
pub const STYLE: &str = include_str!("picture.css");

/// What the lines and boxes mean, to stand above pictures.
pub const LEGEND: &str = include_str!("legend.html");

const MARGIN: i32 = 12;
/// Inside a box.
const PAD: i32 = 11;
const TITLE: i32 = 24;
const LINE: i32 = 16;
const FOOT: i32 = 8;
/// How far to the right a character moves the next one, in hundredths of a px: a little more than the fonts do.
const ADVANCE: i32 = 725;
/// How many characters of a line are shown. All of it stands in the box's tooltip.
const LONGEST: usize = 64;
/// What marks need at the end of a title.
const DEAD_MARK: i32 = 46;
const WARNING_MARK: i32 = 24;
/// How round an edge's corners are.
const RADIUS: i32 = 6;

/// The picture as an SVG element. The same picture gives the same bytes.
pub fn svg(picture: &Picture) -> String {
    let sizes: Vec<(i32, i32)> = picture.boxes.iter().map(size).collect();
    let ends: Vec<(usize, usize)> = picture.edges.iter().map(|edge| (edge.from, edge.to)).collect();
    let layout = layout(&sizes, &ends);
    let (width, height) = (layout.width + 2 * MARGIN, layout.height + 2 * MARGIN);
    let mut svg = String::new();
    push(&mut svg, format_args!("<svg class=\"picture\" xmlns=\"http://www.w3.org/2000/svg\" role=\"img\""));
    push(&mut svg, format_args!(" width=\"{width}\" height=\"{height}\" viewBox=\"0 0 {width} {height}\""));
    push(&mut svg, format_args!(" aria-label=\"{}\">\n", described(picture)));
    push(&mut svg, format_args!("<g transform=\"translate({MARGIN} {MARGIN})\">\n"));
    for (one, rect) in picture.boxes.iter().zip(&layout.boxes) {
        draw_box(&mut svg, one, rect);
    }
    for (edge, route) in picture.edges.iter().zip(&layout.routes) {
        if let Some(from) = layout.boxes.get(edge.from) {
            draw_edge(&mut svg, picture, edge, route, from.x + from.width / 2);
        }
    }
    svg.push_str("</g>\n</svg>\n");
    svg
}

fn described(picture: &Picture) -> String {
    let (blocks, edges) = (counted(picture.boxes.len(), "block"), counted(picture.edges.len(), "edge"));
    format!("Control flow: {blocks}, {edges}")
}

/// The width and height of a box, before its edges may ask for more width.
fn size(one: &PictureBox) -> (i32, i32) {
    let width = |line: &String| line.chars().count().min(LONGEST) as i32 * ADVANCE / 100 + 1 + 2 * PAD;
    let marks = i32::from(one.is_dead) * DEAD_MARK + i32::from(one.has_warning) * WARNING_MARK;
    let title = one.lines.first().map_or(0, width) + marks;
    let widest = one.lines.iter().skip(1).map(width).max().unwrap_or(0);
    let operations = one.lines.len().saturating_sub(1).min(1 << 16) as i32;
    let body = if operations > 0 { operations * LINE + FOOT } else { 0 };
    (title.max(widest).max(4 * PAD), TITLE + body)
}

fn draw_box(svg: &mut String, one: &PictureBox, rect: &Rect) {
    let &Rect { x, y, width, height } = rect;
    let dead = if one.is_dead { " dead" } else { "" };
    let warned = if one.has_warning { " warned" } else { "" };
    push(svg, format_args!("<g class=\"block{dead}{warned}\">"));
    if let Some(tooltip) = tooltip(one) {
        push(svg, format_args!("<title>{}</title>", Escaped(&tooltip)));
    }
    push(
        svg,
        format_args!("<rect class=\"body\" x=\"{x}\" y=\"{y}\" width=\"{width}\" height=\"{height}\" rx=\"5\"/>"),
    );
    if one.lines.len() > 1 {
        push(svg, format_args!("<path class=\"rule\" d=\"M{x} {}h{width}\"/>", y + TITLE));
    }
    for (index, line) in one.lines.iter().enumerate() {
        let class = if index == 0 { "title" } else { "operation" };
        let base = if index == 0 { y + 16 } else { y + TITLE + index as i32 * LINE };
        let line = cut(line);
        push(svg, format_args!("\n<text class=\"{class}\" x=\"{}\" y=\"{base}\">{}</text>", x + PAD, Escaped(&line)));
    }
    let mut end = x + width - PAD;
    if one.has_warning {
        draw_sign(svg, end - 14, y + 5);
        end -= WARNING_MARK;
    }
    if one.is_dead {
        push(svg, format_args!("<text class=\"mark\" x=\"{end}\" y=\"{}\">dead</text>", y + 16));
    }
    svg.push_str("</g>\n");
}

/// A triangle with an exclamation mark, as no font is sure to have it.
fn draw_sign(svg: &mut String, x: i32, y: i32) {
    push(svg, format_args!("<path class=\"sign\" d=\"M{} {y}l7 13h-14z\"/>", x + 7));
    push(svg, format_args!("<path class=\"point\" d=\"M{} {}v4m0 2v1.6\"/>", x + 7, y + 4));
}

/// What a box shows only when it is pointed at: lines that had to be cut.
fn tooltip(one: &PictureBox) -> Option<String> {
    let long: Vec<&str> = one.lines.iter().filter(|line| line.chars().count() > LONGEST).map(String::as_str).collect();
    (!long.is_empty()).then(|| long.join(" / "))
}

fn cut(line: &str) -> String {
    match line.char_indices().nth(LONGEST) {
        None => line.to_owned(),
        Some(_) => line.chars().take(LONGEST - 1).chain(['\u{2026}']).collect(),
    }
}

/// Draws an edge, whose label stands on the side that is further from its from-box's middle.
fn draw_edge(svg: &mut String, picture: &Picture, edge: &PictureEdge, route: &[Point], middle: i32) {
    let [start, .., end] = route else {
        return;
    };
    let (class, when) = match edge.way {
        Way::Only => ("only", ""),
        Way::True => ("true", ", when true"),
        Way::False => ("false", ", when false"),
    };
    let title = |number: usize| picture.boxes[number].lines.first().map_or("", String::as_str);
    push(svg, format_args!("<g class=\"edge {class}\">"));
    push(svg, format_args!("<title>{} to {}{when}</title>", Escaped(title(edge.from)), Escaped(title(edge.to))));
    push(svg, format_args!("<path class=\"line\" d=\"{}\"/>", line(route)));
    let head = if edge.way == Way::False { "l-5 -9m5 9l5 -9" } else { "l-5 -10h10z" };
    push(svg, format_args!("<path class=\"head\" d=\"M{} {}{head}\"/>", end.x, end.y));
    if edge.way != Way::Only {
        let (side, x) = if start.x < middle { ("before", start.x - 5) } else { ("after", start.x + 5) };
        push(svg, format_args!("<text class=\"label {side}\" x=\"{x}\" y=\"{}\">{class}</text>", start.y + 13));
    }
    svg.push_str("</g>\n");
}

/// A line through points, with its corners rounded.
fn line(route: &[Point]) -> String {
    let mut line = String::new();
    for (index, at) in route.iter().enumerate() {
        let (before, after) = (index.checked_sub(1).and_then(|index| route.get(index)), route.get(index + 1));
        match (before, after) {
            (None, _) => push(&mut line, format_args!("M{} {}", at.x, at.y)),
            (Some(_), None) => push(&mut line, format_args!("L{} {}", at.x, at.y)),
            (Some(before), Some(after)) => {
                let radius = RADIUS.min(length(before, at) / 2).min(length(at, after) / 2);
                let (from, to) = (toward(at, before, radius), toward(at, after, radius));
                push(&mut line, format_args!("L{} {}Q{} {} {} {}", from.x, from.y, at.x, at.y, to.x, to.y));
            }
        }
    }
    line
}

/// How far apart two points are that stand above or beside each other.
fn length(one: &Point, other: &Point) -> i32 {
    (one.x - other.x).abs() + (one.y - other.y).abs()
}

/// The point that is so far from one in the direction of another.
fn toward(from: &Point, to: &Point, distance: i32) -> Point {
    Point { x: from.x + (to.x - from.x).signum() * distance, y: from.y + (to.y - from.y).signum() * distance }
}

#[cfg(test)]
mod tests {
    use std::collections::BTreeMap;

    use super::layout::Layout;
    use super::*;

    type Ends = Vec<(usize, usize)>;

    /// From where to where a line runs, and which edge it is of.
    type Piece = (i32, i32, usize);

    fn picture(count: usize, ends: &[(usize, usize)]) -> Picture {
        let one = |number: usize| {
            let lines = vec![format!("block {number} .label"), format!("less:bool = lt a:int {number}")];
            PictureBox { lines, is_dead: number % 5 == 4, has_warning: number % 7 == 3 }
        };
        let mut left = vec![0; count];
        ends.iter().for_each(|&(from, _)| left[from] += 1);
        let mut seen = vec![0; count];
        let edge = |&(from, to): &(usize, usize)| {
            seen[from] += 1;
            let way = match (left[from], seen[from]) {
                (1, _) => Way::Only,
                (_, 1) => Way::True,
                _ => Way::False,
            };
            PictureEdge { from, to, way }
        };
        Picture { boxes: (0..count).map(one).collect(), edges: ends.iter().map(edge).collect() }
    }

    fn laid(picture: &Picture) -> Layout {
        let sizes: Vec<(i32, i32)> = picture.boxes.iter().map(size).collect();
        let ends: Ends = picture.edges.iter().map(|edge| (edge.from, edge.to)).collect();
        layout(&sizes, &ends)
    }

    /// One or two edges from each box, all over the boxes or to those that are near.
    fn random(count: usize, mut seed: u64, near: usize) -> Ends {
        let mut next = |bound: usize| {
            seed = seed.wrapping_mul(6_364_136_223_846_793_005).wrapping_add(1_442_695_040_888_963_407);
            (seed >> 33) as usize % bound
        };
        let mut ends = Vec::new();
        for from in 0..count {
            for _ in 0..next(3) {
                ends.push((from, (from.saturating_sub(near / 3) + next(near)).min(count - 1)));
            }
        }
        ends
    }

    fn samples() -> Vec<(usize, Ends)> {
        let mut samples = vec![
            (0, vec![]),
            (1, vec![]),
            (1, vec![(0, 0)]),
            (1, vec![(0, 0), (0, 0)]),
            (2, vec![(0, 1), (0, 1)]),
            (2, vec![(0, 1), (1, 1), (1, 0)]),
            (3, vec![(0, 1), (1, 0), (1, 2)]),
            (4, vec![(0, 1), (0, 2), (1, 3), (2, 3)]),
            (4, vec![(0, 1), (2, 1), (3, 2), (3, 3)]),
            (5, vec![(0, 1), (0, 2), (1, 3), (1, 4), (2, 3), (2, 4)]),
            (256, vec![]),
            (256, (0..255).map(|from| (from, from + 1)).collect()),
            (256, (0..254).flat_map(|from| [(from, from + 1), (from, 255)]).collect()),
            (256, (0..255).flat_map(|from| [(from, from + 1), (from, 0)]).collect()),
            (255, (0..127).flat_map(|from| [(from, 2 * from + 1), (from, 2 * from + 2)]).collect()),
            (256, random(256, 1, 256)),
            (256, random(256, 2, 12)),
        ];
        samples.extend((0..200).map(|seed| (12, random(12, seed, 12))));
        samples.extend((0..50).map(|seed| (40, random(40, seed, 10))));
        samples
    }

    fn overlap(one: &Rect, other: &Rect) -> bool {
        one.x < other.x + other.width
            && other.x < one.x + one.width
            && one.y < other.y + other.height
            && other.y < one.y + one.height
    }

    /// A straight piece of a line as an area. It has no width, so that it may run along a border.
    fn area(from: &Point, to: &Point) -> Rect {
        let (x, y) = (from.x.min(to.x), from.y.min(to.y));
        Rect { x, y, width: (from.x - to.x).abs(), height: (from.y - to.y).abs() }
    }

    fn areas(route: &[Point]) -> impl Iterator<Item = Rect> {
        route.windows(2).map(|two| area(&two[0], &two[1]))
    }

    #[test]
    fn boxes_do_not_overlap() {
        for (count, ends) in samples() {
            let layout = laid(&picture(count, &ends));
            for (index, one) in layout.boxes.iter().enumerate() {
                assert!(one.x >= 0 && one.x + one.width <= layout.width, "{ends:?}");
                assert!(one.y >= 0 && one.y + one.height <= layout.height, "{ends:?}");
                assert!(!layout.boxes[..index].iter().any(|other| overlap(one, other)), "{index} of {ends:?}");
            }
        }
    }

    #[test]
    fn edges_run_from_border_to_border() {
        for (count, ends) in samples() {
            let layout = laid(&picture(count, &ends));
            for (route, &(from, to)) in layout.routes.iter().zip(&ends) {
                let (from, to) = (layout.boxes[from], layout.boxes[to]);
                let (Some(start), Some(end)) = (route.first(), route.last()) else {
                    panic!("an edge of {ends:?} isn't drawn");
                };
                assert!(start.y == from.y + from.height && from.x < start.x && start.x < from.x + from.width);
                assert!(end.y == to.y && to.x < end.x && end.x < to.x + to.width);
                assert!(route.windows(2).all(|two| two[0].x == two[1].x || two[0].y == two[1].y), "{route:?}");
                assert!(areas(route).all(|piece| !layout.boxes.iter().any(|one| overlap(&piece, one))), "{ends:?}");
            }
        }
    }

    #[test]
    fn edges_do_not_run_on_top_of_each_other() {
        for (count, ends) in samples() {
            let layout = laid(&picture(count, &ends));
            let mut lines: BTreeMap<(bool, i32), Vec<Piece>> = BTreeMap::new();
            for (edge, route) in layout.routes.iter().enumerate() {
                for piece in areas(route) {
                    let (key, start, length) = match piece.width {
                        0 => ((true, piece.x), piece.y, piece.height),
                        width => ((false, piece.y), piece.x, width),
                    };
                    lines.entry(key).or_default().push((start, start + length, edge));
                }
            }
            for pieces in lines.values_mut() {
                pieces.sort();
                let (mut end, mut last) = (i32::MIN, 0);
                for &(start, next, edge) in pieces.iter() {
                    assert!(end <= start || last == edge, "{:?} of {ends:?}", (ends[last], ends[edge]));
                    (end, last) = if next > end { (next, edge) } else { (end, last) };
                }
            }
        }
    }

    #[test]
    fn labels_stand_free() {
        for (count, ends) in samples().into_iter().filter(|(count, _)| *count < 100) {
            let picture = picture(count, &ends);
            let layout = laid(&picture);
            for (edge, start) in picture.edges.iter().zip(layout.routes.iter().map(|route| route[0])) {
                let from = layout.boxes[edge.from];
                let x = if start.x < from.x + from.width / 2 { start.x - 5 - 34 } else { start.x + 5 };
                let label = Rect { x, y: start.y + 3, width: 34, height: 13 };
                let is_free = !layout.boxes.iter().any(|one| overlap(&label, one))
                    && !layout.routes.iter().flat_map(|route| areas(route)).any(|piece| overlap(&label, &piece));
                assert!(edge.way == Way::Only || is_free, "{:?} of {ends:?}", (edge.from, edge.to));
            }
        }
    }

    /// Whether all tags are closed in their order, and all that could be one is.
    fn is_well_formed(text: &str) -> bool {
        let mut open = Vec::new();
        for part in text.split('<').skip(1) {
            let Some((tag, text)) = part.split_once('>') else {
                return false;
            };
            if text.contains('>') || tag.matches('"').count() % 2 != 0 {
                return false;
            }
            let name = tag.split(' ').next().unwrap_or_default();
            match name.strip_prefix('/') {
                Some(name) if open.pop() == Some(name) => {}
                Some(_) => return false,
                None if tag.ends_with('/') => {}
                None => open.push(name),
            }
        }
        open.is_empty()
    }

    #[test]
    fn a_picture_is_well_formed_and_always_the_same() {
        for (count, ends) in samples() {
            let picture = picture(count, &ends);
            let drawn = svg(&picture);
            assert!(drawn.starts_with("<svg ") && is_well_formed(&drawn), "{ends:?}");
            assert_eq!(drawn, svg(&picture));
            assert_eq!(drawn.matches("class=\"line\"").count(), ends.len());
        }
        assert!(is_well_formed("<a><b c=\"d\"/></a>") && !is_well_formed("<a><b></a></b>") && !is_well_formed("<a>"));
        assert!(!is_well_formed("<a>1 > 0</a>") && !is_well_formed("<a b=\"></a>") && !is_well_formed("<a></a><"));
    }

    #[test]
    fn text_stays_text() {
        let lines = vec!["<script>\"&'</script>".to_owned(), "x".repeat(500)];
        let boxes = vec![PictureBox { lines, is_dead: true, has_warning: true }];
        let drawn = svg(&Picture { boxes, edges: vec![PictureEdge { from: 0, to: 0, way: Way::True }] });
        assert!(!drawn.contains("<script") && drawn.contains("&lt;script&gt;&quot;&amp;&#39;"));
        assert!(drawn.contains(">dead</text>") && drawn.contains("class=\"sign\""));
        assert!(drawn.contains(&format!(">{}\u{2026}</text>", "x".repeat(LONGEST - 1))));
    }

    #[test]
    fn an_edge_without_a_box_is_left_out() {
        let mut picture = picture(2, &[(0, 1)]);
        picture.edges.push(PictureEdge { from: 1, to: 2, way: Way::Only });
        picture.edges.push(PictureEdge { from: 9, to: 0, way: Way::Only });
        assert_eq!(svg(&picture).matches("class=\"line\"").count(), 1);
    }

    #[test]
    fn ways_differ_in_more_than_colour() {
        let drawn = svg(&picture(2, &[(0, 1), (0, 1)]));
        assert!(drawn.contains(">true</text>") && drawn.contains(">false</text>"));
        assert!(drawn.contains("h10z") && drawn.contains("m5 9"));
        assert!(STYLE.contains(".false .line { stroke: var(--false); stroke-dasharray"));
    }
}
