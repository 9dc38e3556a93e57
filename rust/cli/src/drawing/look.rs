//! A survey as it looks from above, or from the side.

use super::scene::Scene;
use cockledrift::{Point, Reach};

/// Which way the survey is looked at.
#[derive(Clone, Copy, PartialEq, Eq, Debug)]
pub enum Look {
    /// From above, north up.
    Plan,
    /// From the side, in this direction: whole degrees from north over east.
    Elevation(u16),
}

/// A place on the picture: centimetres of cave to the right and up.
pub type Flat = [i64; 2];

/// The least and the greatest place.
pub type Box = [Flat; 2];

impl Look {
    /// Where a place of the survey goes. One place goes to one place: legs that meet
    /// in the file meet on the picture.
    pub fn flat(self, Point { x, y, z }: Point) -> Flat {
        match self {
            Look::Plan => [x.into(), y.into()],
            Look::Elevation(bearing) => {
                let right = f64::from(x) * sine(bearing + 90) - f64::from(y) * sine(bearing);
                [right.round() as i64, z.into()]
            }
        }
    }

    /// How far the survey reaches on the picture. Where it is looked at along an axis
    /// the corners of its reach say it; else its ends are looked at.
    pub fn bounds(self, scene: &Scene) -> Box {
        let corners = corners(&scene.reach);
        match self {
            Look::Elevation(bearing) if bearing % 90 != 0 => {
                bounds(scene.lines.iter().flat_map(|line| [line.from, line.to]), self)
            }
            _ => bounds(corners.into_iter(), self),
        }
    }

    /// `Plan`, or `Elevation, looking 90°`.
    pub fn words(self) -> String {
        match self {
            Look::Plan => "Plan".into(),
            Look::Elevation(bearing) => format!("Elevation, looking {bearing:03}°"),
        }
    }
}

fn corners(reach: &Reach) -> [Point; 2] {
    [reach.least, reach.greatest].map(|[x, y, z]| Point { x, y, z })
}

fn bounds(points: impl Iterator<Item = Point>, look: Look) -> Box {
    let mut all = [[i64::MAX; 2], [i64::MIN; 2]];
    for point in points.map(|point| look.flat(point)) {
        for (axis, &number) in point.iter().enumerate() {
            all[0][axis] = all[0][axis].min(number);
            all[1][axis] = all[1][axis].max(number);
        }
    }
    all
}

/// The sine of whole degrees, by arithmetic alone: the same on every machine.
fn sine(degrees: u16) -> f64 {
    match degrees % 360 {
        degrees @ 0..=90 => quarter(degrees),
        degrees @ 91..=180 => quarter(180 - degrees),
        degrees @ 181..=270 => -quarter(degrees - 180),
        degrees => -quarter(360 - degrees),
    }
}

/// The sine of 0 to 90 degrees: its series up to 45, that of the cosine above.
fn quarter(degrees: u16) -> f64 {
    let (angle, first) = if degrees <= 45 { (degrees, 2) } else { (90 - degrees, 1) };
    let angle = f64::from(angle) * std::f64::consts::PI / 180.0;
    let mut sum = 1.0;
    for step in (0..8).rev() {
        let number = f64::from(first + 2 * step);
        sum = 1.0 - sum * angle * angle / (number * (number + 1.0));
    }
    if first == 2 {
        sum * angle
    } else {
        sum
    }
}

#[cfg(test)]
mod tests {
    use super::*;

    #[test]
    fn sines() {
        for degrees in 0..=720 {
            let due = (f64::from(degrees) * std::f64::consts::PI / 180.0).sin();
            assert!((sine(degrees) - due).abs() < 1e-14, "{degrees}");
        }
        let axes = [0, 90, 180, 270, 360].map(sine);
        assert_eq!(axes, [0.0, 1.0, 0.0, -1.0, 0.0]);
    }

    #[test]
    fn directions() {
        let at = Point { x: 300, y: 500, z: 70 };
        let due = [(0, 300), (90, -500), (180, -300), (270, 500), (45, -141)];
        for (bearing, right) in due {
            assert_eq!(Look::Elevation(bearing).flat(at), [right, 70]);
        }
        assert_eq!(Look::Plan.flat(at), [300, 500]);
    }
}
