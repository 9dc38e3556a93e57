//! A short way from one list to another, by taking out and putting in: the shortest
//! where it is not long (Myers); else by way of what both have once (patience).

use std::collections::HashMap;
use std::hash::Hash;

/// A step of the way, with places in the lists.
#[derive(Clone, Copy, PartialEq, Eq, Debug)]
pub enum Step {
    /// Both have it.
    Both(usize, usize),
    /// Only the first has it.
    Out(usize),
    /// Only the second has it.
    In(usize),
}

/// How many steps are looked for between two places that both lists have.
const FAR: usize = 2000;

/// How often a part that is too far apart is parted again.
const PARTED: usize = 8;

/// The way from `a` to `b`, in order.
pub fn way<T: Eq + Hash>(a: &[T], b: &[T]) -> Vec<Step> {
    within(a, b, PARTED)
}

fn within<T: Eq + Hash>(a: &[T], b: &[T], parted: usize) -> Vec<Step> {
    let front = a.iter().zip(b).take_while(|(one, two)| one == two).count();
    let (rest_a, rest_b) = (&a[front..], &b[front..]);
    let back =
        rest_a.iter().rev().zip(rest_b.iter().rev()).take_while(|(one, two)| one == two).count();
    let (mid_a, mid_b) = (&rest_a[..rest_a.len() - back], &rest_b[..rest_b.len() - back]);
    let mut steps: Vec<_> = (0..front).map(|at| Step::Both(at, at)).collect();
    let middle = middle(mid_a, mid_b).unwrap_or_else(|| through(mid_a, mid_b, parted));
    steps.extend(middle.into_iter().map(|step| step.on(front, front)));
    let behind = |at: usize| Step::Both(a.len() - back + at, b.len() - back + at);
    steps.extend((0..back).map(behind));
    steps
}

impl Step {
    /// The step in lists that have more in front.
    fn on(self, a: usize, b: usize) -> Step {
        match self {
            Step::Both(x, y) => Step::Both(x + a, y + b),
            Step::Out(x) => Step::Out(x + a),
            Step::In(y) => Step::In(y + b),
        }
    }
}

/// The way by what stands once in each list: from one such place to the next.
fn through<T: Eq + Hash>(a: &[T], b: &[T], parted: usize) -> Vec<Step> {
    let places = if parted > 0 { rising(&once(a, b)) } else { Vec::new() };
    if places.is_empty() {
        return apart(a.len(), b.len());
    }
    let (mut steps, mut x, mut y) = (Vec::new(), 0, 0);
    for (next_x, next_y) in places {
        let gap = within(&a[x..next_x], &b[y..next_y], parted - 1);
        steps.extend(gap.into_iter().map(|step| step.on(x, y)));
        steps.push(Step::Both(next_x, next_y));
        (x, y) = (next_x + 1, next_y + 1);
    }
    let gap = within(&a[x..], &b[y..], parted - 1);
    steps.extend(gap.into_iter().map(|step| step.on(x, y)));
    steps
}

/// The places of what stands once in each list, in the order of the first.
fn once<T: Eq + Hash>(a: &[T], b: &[T]) -> Vec<(usize, usize)> {
    // How often it stands in each, and where last.
    let mut seen: HashMap<&T, [(usize, usize); 2]> = HashMap::new();
    for (side, list) in [a, b].into_iter().enumerate() {
        for (at, item) in list.iter().enumerate() {
            let place = &mut seen.entry(item).or_default()[side];
            *place = (place.0 + 1, at);
        }
    }
    let single = seen.into_values().filter(|sides| sides.iter().all(|(count, _)| *count == 1));
    let mut places: Vec<_> = single.map(|[(_, x), (_, y)]| (x, y)).collect();
    places.sort_unstable();
    places
}

/// As many of the places as rise in both lists.
fn rising(places: &[(usize, usize)]) -> Vec<(usize, usize)> {
    // The least last place of a row of each length, and what comes before each.
    let (mut least, mut before): (Vec<usize>, Vec<Option<usize>>) = (Vec::new(), Vec::new());
    for (number, (_, y)) in places.iter().enumerate() {
        let length = least.partition_point(|&last| places[last].1 < *y);
        before.push(length.checked_sub(1).map(|shorter| least[shorter]));
        match least.get_mut(length) {
            Some(last) => *last = number,
            None => least.push(number),
        }
    }
    let mut row = Vec::new();
    let mut next = least.last().copied();
    while let Some(number) = next {
        row.push(places[number]);
        next = before[number];
    }
    row.reverse();
    row
}

/// All out, all in.
fn apart(a: usize, b: usize) -> Vec<Step> {
    (0..a).map(Step::Out).chain((0..b).map(Step::In)).collect()
}

/// The shortest way, where it is not too long. `reached[d][k]` is how far into `a`
/// d steps come on diagonal k - d (place in `a` less place in `b`).
fn middle<T: PartialEq>(a: &[T], b: &[T]) -> Option<Vec<Step>> {
    let mut reached: Vec<Vec<usize>> = Vec::new();
    for steps in 0..=FAR.min(a.len() + b.len()) {
        let mut row = vec![0; 2 * steps + 1];
        for k in (0..=2 * steps).step_by(2) {
            let mut x = start(&reached, steps, k).0;
            // The diagonal: x - y = k - steps.
            let mut y = (x + steps).wrapping_sub(k);
            while x < a.len() && y < b.len() && a[x] == b[y] {
                (x, y) = (x + 1, y + 1);
            }
            row[k] = x;
            if (x, y) == (a.len(), b.len()) {
                reached.push(row);
                return Some(back(&reached, a.len(), b.len()));
            }
        }
        reached.push(row);
    }
    None
}

/// Where a step begins that ends on diagonal k - steps, and whether it goes down
/// (puts in).
fn start(reached: &[Vec<usize>], steps: usize, k: usize) -> (usize, bool) {
    if steps == 0 {
        return (0, false);
    }
    // Diagonals one lower and one higher, in the row before.
    let before = &reached[steps - 1];
    let (lower, higher) = (k.checked_sub(2).map(|k| before[k]), before.get(k).copied());
    match (lower, higher) {
        (Some(lower), Some(higher)) if lower < higher => (higher, true),
        (None, Some(higher)) => (higher, true),
        (Some(lower), _) => (lower + 1, false),
        (None, None) => (0, false),
    }
}

/// The steps, found from the end.
fn back(reached: &[Vec<usize>], a: usize, b: usize) -> Vec<Step> {
    let (mut x, mut y, mut steps) = (a, b, Vec::new());
    for count in (0..reached.len()).rev() {
        let k = x + count - y;
        let (begin, down) = start(reached, count, k);
        while x > begin && y > 0 && (count > 0 || x > 0) {
            (x, y) = (x - 1, y - 1);
            steps.push(Step::Both(x, y));
        }
        match (count, down) {
            (0, _) => {}
            (_, true) => {
                y -= 1;
                steps.push(Step::In(y));
            }
            (_, false) => {
                x -= 1;
                steps.push(Step::Out(x));
            }
        }
    }
    steps.reverse();
    steps
}
