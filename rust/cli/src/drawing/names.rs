//! Where names fit: a grid of what is taken on the paper.

/// The side of a cell, in millimetres.
const CELL: f64 = 0.5;

/// A rectangle on the paper: left, top, right, bottom, in millimetres.
#[derive(Clone, Copy, PartialEq, Debug)]
pub struct Place {
    pub left: f64,
    pub top: f64,
    pub right: f64,
    pub bottom: f64,
}

/// The cells of a part of the paper, taken or not.
pub struct Grid {
    part: Place,
    columns: usize,
    taken: Vec<bool>,
}

impl Grid {
    pub fn new(part: Place) -> Grid {
        let columns = ((part.right - part.left) / CELL) as usize;
        let rows = ((part.bottom - part.top) / CELL) as usize;
        Grid { part, columns, taken: vec![false; columns * rows] }
    }

    /// The numbers of the cells that the rectangle touches; none where it is not
    /// inside.
    fn cells(&self, place: Place) -> Option<impl Iterator<Item = usize> + use<>> {
        let (part, columns) = (self.part, self.columns);
        let inside = place.left >= part.left && place.top >= part.top;
        let column = |x: f64| ((x - part.left) / CELL) as usize;
        let row = |y: f64| ((y - part.top) / CELL) as usize;
        let (last, lowest) = (column(place.right), row(place.bottom));
        let rows = self.taken.len() / columns.max(1);
        let (first, highest) = (column(place.left), row(place.top));
        let whole = inside && last < columns && lowest < rows;
        whole.then(move || {
            (highest..=lowest).flat_map(move |row| (first..=last).map(move |at| row * columns + at))
        })
    }

    pub fn free(&self, place: Place) -> bool {
        self.cells(place).is_some_and(|mut cells| cells.all(|cell| !self.taken[cell]))
    }

    pub fn take(&mut self, place: Place) {
        for cell in self.cells(place).into_iter().flatten() {
            self.taken[cell] = true;
        }
    }

    /// Takes the cells under a line.
    pub fn take_line(&mut self, from: [f64; 2], to: [f64; 2]) {
        let far = (to[0] - from[0]).abs().max((to[1] - from[1]).abs());
        let steps = (far / CELL * 2.0).ceil().max(1.0);
        for step in 0..=steps as usize {
            let part = step as f64 / steps;
            let [x, y] = [0, 1].map(|axis| from[axis] + (to[axis] - from[axis]) * part);
            self.take(Place { left: x, top: y, right: x, bottom: y });
        }
    }
}

/// A text on the paper.
#[derive(Clone, PartialEq, Debug)]
pub struct Label {
    pub text: String,
    /// Where its line begins, at the left.
    pub at: [f64; 2],
    /// How far it is from what it names.
    pub distance: f64,
}

/// How wide a letter is taken to be, of the size: most are narrower.
pub const LETTER: f64 = 0.62;

/// How wide a text is taken to be.
pub fn width(text: &str, size: f64) -> f64 {
    text.chars().count() as f64 * size * LETTER
}

/// As much of the text as fits.
pub fn cut(text: &str, size: f64, room: f64) -> String {
    let letters = (room / (size * LETTER)) as usize;
    match text.chars().count() <= letters {
        true => text.into(),
        false => text.chars().take(letters.saturating_sub(1)).chain(['…']).collect(),
    }
}

/// Where a name is tried: the part of its width that lies left of the place, and the
/// way to the right and down. Beside, between, above and below.
const WAYS: [[f64; 3]; 8] = [
    [0.0, 1.0, 0.0],
    [1.0, -1.0, 0.0],
    [0.0, 0.7, -0.9],
    [1.0, -0.7, -0.9],
    [0.0, 0.7, 0.9],
    [1.0, -0.7, 0.9],
    [0.5, 0.0, -1.0],
    [0.5, 0.0, 1.0],
];

/// Takes the room of a name beside a place, at one of these distances; none where
/// there is none.
pub fn beside(
    grid: &mut Grid,
    text: &str,
    size: f64,
    at: [f64; 2],
    distances: &[f64],
) -> Option<Label> {
    for &distance in distances {
        for way in WAYS {
            let (label, place) = tried(text, size, at, distance, way);
            if grid.free(place) {
                grid.take(place);
                return Some(label);
            }
        }
    }
    None
}

fn tried(text: &str, size: f64, at: [f64; 2], distance: f64, way: [f64; 3]) -> (Label, Place) {
    let ([left_of, right, down], wide, half) = (way, width(text, size), size * 0.6);
    let x = at[0] + right * distance - left_of * wide;
    let y = at[1] + down * (distance + half);
    let place = Place { left: x, top: y - half, right: x + wide, bottom: y + half };
    (Label { text: text.into(), at: [x, y + size * 0.35], distance }, place)
}

#[cfg(test)]
mod tests {
    use super::*;

    #[test]
    fn names_do_not_touch() {
        let mut grid = Grid::new(Place { left: 0.0, top: 0.0, right: 40.0, bottom: 20.0 });
        let found = (0..40).map_while(|_| beside(&mut grid, "12", 2.0, [20.0, 10.0], &[1.0]));
        let found: Vec<_> = found.collect();
        assert!((2..=8).contains(&found.len()), "{found:?}");
        for (number, a) in found.iter().enumerate() {
            for b in &found[..number] {
                let [x, y] = [0, 1].map(|axis| (a.at[axis] - b.at[axis]).abs());
                assert!(x >= width("12", 2.0) || y >= 2.0, "{a:?} {b:?}");
            }
        }
        assert_eq!(beside(&mut grid, "12", 2.0, [90.0, 10.0], &[1.0]), None);
    }

    #[test]
    fn a_line_takes_its_cells() {
        let mut grid = Grid::new(Place { left: 0.0, top: 0.0, right: 10.0, bottom: 10.0 });
        grid.take_line([1.0, 1.0], [9.0, 9.0]);
        let at = |x: f64, y: f64| Place { left: x, top: y, right: x + 0.1, bottom: y + 0.1 };
        assert!(!grid.free(at(5.0, 5.0)) && grid.free(at(5.0, 7.0)) && !grid.free(at(-1.0, 3.0)));
    }

    #[test]
    fn long_titles() {
        assert_eq!(cut("abc", 1.0, 10.0), "abc");
        assert_eq!(cut("abcdefghij", 1.0, 3.2), "abcd…");
    }
}
