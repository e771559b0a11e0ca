//! Which edges run back, and in which layer each box stands.

pub struct Layers {
    /// The layer of each box, counted from 0 at the top.
    pub of_box: Vec<usize>,
    /// Of each edge, whether it closes a cycle: it runs up, or to its own box.
    pub is_back: Vec<bool>,
}

/// The layers of boxes that are joined by edges (from, to). Without the edges that run back, a box stands one layer
/// under the lowest that leads to it.
pub fn layers(count: usize, edges: &[(usize, usize)]) -> Layers {
    let leaving = leaving(count, edges);
    let (is_back, downward) = walk(edges, &leaving);
    let mut of_box = vec![0; count];
    let mut is_root = vec![true; count];
    for &from in &downward {
        for &edge in leaving[from].iter().filter(|&&edge| !is_back[edge]) {
            let to = edges[edge].1;
            of_box[to] = of_box[to].max(of_box[from] + 1);
            is_root[to] = false;
        }
    }
    // A dead box that nothing leads to stands next to what it leads to, and not far up beside the entry.
    for root in (1..count).filter(|&root| is_root[root]) {
        let under = leaving[root].iter().filter(|&&edge| !is_back[edge]).map(|&edge| of_box[edges[edge].1]);
        of_box[root] = under.min().map_or(0, |layer| layer - 1);
    }
    Layers { of_box, is_back }
}

/// The numbers of the edges that leave each box.
fn leaving(count: usize, edges: &[(usize, usize)]) -> Vec<Vec<usize>> {
    let mut leaving = vec![Vec::new(); count];
    for (number, &(from, _)) in edges.iter().enumerate() {
        leaving[from].push(number);
    }
    leaving
}

#[derive(Clone, Copy, PartialEq)]
enum State {
    New,
    Open,
    Done,
}

/// A walk in depth from box 0, then from each box that wasn't reached. Says which edges lead to a box that is still
/// open, and lists the boxes so that all other edges lead from an earlier to a later one.
fn walk(edges: &[(usize, usize)], leaving: &[Vec<usize>]) -> (Vec<bool>, Vec<usize>) {
    let mut is_back = vec![false; edges.len()];
    let mut state = vec![State::New; leaving.len()];
    let mut done = Vec::with_capacity(leaving.len());
    for root in 0..leaving.len() {
        if state[root] != State::New {
            continue;
        }
        state[root] = State::Open;
        let mut open = vec![(root, 0)];
        while let Some((at, next)) = open.last_mut() {
            let Some(&edge) = leaving[*at].get(*next) else {
                state[*at] = State::Done;
                done.push(*at);
                open.pop();
                continue;
            };
            *next += 1;
            let to = edges[edge].1;
            match state[to] {
                State::New => {
                    state[to] = State::Open;
                    open.push((to, 0));
                }
                State::Open => is_back[edge] = true,
                State::Done => {}
            }
        }
    }
    done.reverse();
    (is_back, done)
}
