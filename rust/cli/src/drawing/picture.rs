//! A survey to scale on paper, as an SVG picture. Its units are millimetres of
//! paper; legs are in centimetres of cave, less the least corner, and one transform
//! brings them onto the paper.

use super::look::{Flat, Look};
use super::names::{beside, cut, width, Grid, Label, Place};
use super::paper::{round_length, Paper, BLOCK, MARGIN};
use super::scene::{Mark, Scene, Stroke};
use super::svg::{element, group, plain, short, text, Path};

/// The strokes, with what they are called, colour, width and dashes in millimetres.
const STROKES: [(Stroke, &str, &str, f64, &[f64]); 4] = [
    (Stroke::Splay, "splay", "#9aa5ab", 0.12, &[]),
    (Stroke::Surface, "surface", "#5b8c3e", 0.25, &[1.4, 0.9]),
    (Stroke::Duplicate, "duplicate", "#8d7aa8", 0.25, &[]),
    (Stroke::Cave, "leg", "#17364a", 0.35, &[]),
];

const INK: &str = "#1d262b";
const FAINT: &str = "#d5dcdf";
const ENTRANCE: &str = "#b3261e";

/// The sizes of names, in millimetres.
const STATION_SIZE: f64 = 1.9;
const ENTRANCE_SIZE: f64 = 3.0;

/// How far the name of an entrance may be from it, in millimetres.
const AWAY: [f64; 8] = [1.8, 4.0, 7.0, 11.0, 16.0, 22.0, 30.0, 40.0];

/// The room of the scale bar and the legend, in millimetres.
const BAR: f64 = 60.0;
const COLUMN: f64 = 84.0;

pub struct Picture<'s> {
    scene: &'s Scene,
    look: Look,
    pub paper: Paper,
    title: &'s str,
    /// The lines below the title.
    words: &'s [String],
    least: Flat,
    /// Where the least corner is on the paper.
    corner: [f64; 2],
}

impl<'s> Picture<'s> {
    pub fn new(
        scene: &'s Scene,
        look: Look,
        paper: Paper,
        title: &'s str,
        words: &'s [String],
    ) -> Self {
        let [least, most] = look.bounds(scene);
        let (room, factor) = (paper.room(), paper.factor());
        let free =
            |axis: usize, room: u64| room as f64 - most[axis].abs_diff(least[axis]) as f64 * factor;
        let corner = [
            paper.left as f64 + free(0, room.0) / 2.0,
            (MARGIN + room.1) as f64 - free(1, room.1) / 2.0,
        ];
        Picture { scene, look, paper, title, words, least, corner }
    }

    /// The whole picture.
    pub fn svg(&self) -> String {
        let Paper { width, height, .. } = self.paper;
        let (mut dots, mut labels) = (String::new(), String::new());
        self.named(&mut dots, &mut labels);
        let mut out = format!(
            "<svg xmlns=\"http://www.w3.org/2000/svg\" width=\"{width}mm\" height=\"{height}mm\" \
             viewBox=\"0 0 {width} {height}\" font-family=\"sans-serif\" fill=\"{INK}\">\n\
             <title>{}</title>\n",
            plain(self.title)
        );
        out += "<desc>Millimetres of paper. The legs are in centimetres of cave, transformed once.</desc>\n";
        out += &element(
            "rect",
            &[
                ("width", width.to_string()),
                ("height", height.to_string()),
                ("fill", "#fff".into()),
            ],
        );
        out += &self.heights();
        out += &self.legs(&dots);
        out += &labels;
        out += &self.block();
        out + "</svg>\n"
    }

    /// A place of the survey on the paper.
    fn on_paper(&self, at: Flat) -> [f64; 2] {
        let factor = self.paper.factor();
        let [right, up] = [0, 1].map(|axis| (at[axis] - self.least[axis]) as f64 * factor);
        [self.corner[0] + right, self.corner[1] - up]
    }

    fn local(&self, at: Flat) -> Flat {
        [0, 1].map(|axis| at[axis] - self.least[axis])
    }

    /// The legs, a path for each stroke, and the dots of named stations.
    fn legs(&self, dots: &str) -> String {
        let (factor, [x, y]) =
            (self.paper.factor(), self.corner.map(|number| format!("{number:.4}")));
        let mut content = String::new();
        for (stroke, name, color, width, dashes) in STROKES {
            let mut path = Path::default();
            for line in self.scene.lines.iter().filter(|line| line.stroke == stroke) {
                let [from, to] = [line.from, line.to].map(|at| self.local(self.look.flat(at)));
                path.line(from, to);
            }
            if !path.data.is_empty() {
                content += &self.path(name, color, width, dashes, &path.data);
            }
        }
        if !dots.is_empty() {
            content += &self.path("stations", INK, 0.6, &[], dots);
        }
        let attributes = [
            ("id", "legs".into()),
            ("transform", format!("matrix({factor} 0 0 {} {x} {y})", -factor)),
            ("fill", "none".into()),
            ("stroke-linecap", "round".into()),
            ("stroke-linejoin", "round".into()),
        ];
        group(&attributes, &content)
    }

    /// A path in centimetres of cave, its stroke in millimetres of paper.
    fn path(&self, name: &str, color: &str, width: f64, dashes: &[f64], data: &str) -> String {
        let cave = |millimetres: f64| short(millimetres / self.paper.factor());
        let mut attributes =
            vec![("id", name.to_string()), ("stroke", color.into()), ("stroke-width", cave(width))];
        if !dashes.is_empty() {
            let dashes: Vec<_> = dashes.iter().map(|&dash| cave(dash)).collect();
            attributes.push(("stroke-dasharray", dashes.join(" ")));
            attributes.push(("stroke-linecap", "butt".into()));
        }
        attributes.push(("d", data.into()));
        element("path", &attributes)
    }

    /// The grid of the drawing's room, its legs taken.
    fn grid(&self) -> Grid {
        let (left, top) = (self.paper.left as f64, MARGIN as f64);
        let (width, height) = self.paper.room();
        let (right, bottom) = (left + width as f64, top + height as f64);
        let mut grid = Grid::new(Place { left, top, right, bottom });
        for line in &self.scene.lines {
            let [from, to] = [line.from, line.to].map(|at| self.on_paper(self.look.flat(at)));
            grid.take_line(from, to);
        }
        grid
    }

    /// The names: of all entrances, and of other stations where they fit.
    fn named(&self, dots: &mut String, out: &mut String) {
        let mut grid = self.grid();
        let (mut marks, mut names, mut stations) = (String::new(), String::new(), String::new());
        for mark in self.scene.marks.iter().filter(|mark| mark.entrance) {
            let at = self.on_paper(self.look.flat(mark.at));
            marks += &triangle(at);
            let [x, y] = at;
            grid.take(Place { left: x - 1.3, top: y - 1.3, right: x + 1.3, bottom: y + 1.3 });
        }
        for mark in self.scene.marks.iter().filter(|mark| mark.entrance) {
            names += &self.entrance(&mut grid, mark);
        }
        for mark in self.scene.marks.iter().filter(|mark| !mark.entrance) {
            let (at, name) = (self.look.flat(mark.at), last_part(&mark.name));
            let found = beside(&mut grid, name, STATION_SIZE, self.on_paper(at), &[0.7]);
            if let Some(Label { text: name, at: place, .. }) = found {
                stations += &text(place, &name);
                let [x, y] = self.local(at);
                *dots += &format!("M{x} {y}h0");
            }
        }
        let size = |size: f64| ("font-size", short(size));
        *out += &group(&[("id", "names".into()), size(STATION_SIZE)], &stations);
        let red = ("fill", ENTRANCE.to_string());
        *out += &group(&[("id", "entrances".into()), red.clone()], &marks);
        *out += &group(&[("id", "entrance-names".into()), red, size(ENTRANCE_SIZE)], &names);
    }

    /// The name of an entrance, with a line to it where it stands away from it. Where
    /// no room is left it stands beside the mark all the same.
    fn entrance(&self, grid: &mut Grid, mark: &Mark) -> String {
        let at = self.on_paper(self.look.flat(mark.at));
        let name = cut(&mark.name, ENTRANCE_SIZE, self.paper.room().0 as f64 / 2.0);
        let wide = width(&name, ENTRANCE_SIZE);
        let Some(Label { at: [x, y], distance, .. }) =
            beside(grid, &name, ENTRANCE_SIZE, at, &AWAY)
        else {
            let right = (self.paper.width - MARGIN) as f64 - wide;
            return text([(at[0] + AWAY[0]).min(right), at[1] + 1.0], &name);
        };
        let mut out = text([x, y], &name);
        if distance > AWAY[1] {
            let [a, b, c, d] = [at[0], at[1], at[0].clamp(x, x + wide), y - 1.0].map(short);
            let stroke = ("stroke", ENTRANCE.to_string());
            let data = ("d", format!("M{a} {b} {c} {d}"));
            out += &element("path", &[stroke, ("stroke-width", "0.12".into()), data]);
        }
        out
    }

    /// The heights of an elevation: faint lines, with metres at the left.
    fn heights(&self) -> String {
        if self.look == Look::Plan {
            return String::new();
        }
        let [[_, low], [_, high]] = self.look.bounds(self.scene);
        let step = step_of(12.0 / self.paper.factor());
        let first = low.div_euclid(step) + i64::from(low.rem_euclid(step) != 0);
        let mut marks: Vec<_> = (first..=high.div_euclid(step)).map(|mark| mark * step).collect();
        if marks.is_empty() {
            marks.push(low);
        }
        let (left, right) = (self.paper.left as f64, (self.paper.width - MARGIN) as f64);
        let (mut lines, mut words) = (String::new(), String::new());
        for mark in marks {
            let [_, y] = self.on_paper([self.least[0], mark]);
            lines += &format!("M{} {}H{}", short(left - 1.5), short(y), short(right));
            words += &text([left - 2.5, y + 0.9], &length(mark));
        }
        let stroke = [("stroke", FAINT.into()), ("stroke-width", "0.15".into()), ("d", lines)];
        let anchor = ("text-anchor", "end".into());
        group(
            &[("id", "heights".into()), anchor, ("font-size", "2.4".into())],
            &(element("path", &stroke) + &words),
        )
    }

    /// The title, the lines below it, the scale bar, the legend and the arrow.
    fn block(&self) -> String {
        let Paper { width, height, .. } = self.paper;
        let (top, right) = ((height - MARGIN - BLOCK) as f64, (width - MARGIN) as f64);
        let left = MARGIN as f64;
        let line = format!("M{left} {} H{right}", short(top + 5.0));
        let mut out = element(
            "path",
            &[("stroke", FAINT.into()), ("stroke-width", "0.3".into()), ("d", line)],
        );
        let room = right - COLUMN - left;
        let title = text([left, top + 12.5], &cut(self.title, 5.0, room));
        out += &group(&[("font-size", "5".into()), ("font-weight", "bold".into())], &title);
        let mut below = String::new();
        for (number, words) in self.words.iter().enumerate() {
            below += &text([left, top + 17.5 + 4.2 * number as f64], &cut(words, 2.6, room));
        }
        out += &group(&[("font-size", "2.6".into())], &below);
        out += &self.bar([right - COLUMN + 4.0, top + 10.0]);
        out += &self.legend([right - COLUMN + 4.0, top + 21.5]);
        match self.look {
            Look::Plan => out + &north([right - 6.0, top + 8.0]),
            Look::Elevation(_) => out,
        }
    }

    /// The scale bar, in four parts.
    fn bar(&self, [x, y]: [f64; 2]) -> String {
        let factor = self.paper.factor();
        let cave = round_length(BAR / factor);
        let long = cave as f64 * factor;
        let [left, top, quarter] = [x, y, long / 4.0].map(short);
        let filled = format!(
            "M{left} {top}h{quarter}v1.4h-{quarter}zm{} 0h{quarter}v1.4h-{quarter}z",
            short(long / 2.0)
        );
        let mut out = element("path", &[("d", filled)]);
        let mut frame = vec![("id", "scale-bar".to_string()), ("x", left), ("y", top)];
        frame.extend([
            ("width", format!("{long:.4}")),
            ("height", "1.4".into()),
            ("fill", "none".into()),
        ]);
        frame.extend([("stroke", INK.into()), ("stroke-width", "0.15".into())]);
        out += &element("rect", &frame);
        let words =
            text([x, y + 4.8], &format!("{}, 1:{}", length(cave as i64), self.paper.denominator));
        out + &group(&[("id", "scale".into()), ("font-size", "2.6".into())], &words)
    }

    /// The strokes that are there.
    fn legend(&self, [mut x, y]: [f64; 2]) -> String {
        let mut out = String::new();
        for (stroke, name, color, wide, dashes) in STROKES.into_iter().rev() {
            if !self.scene.lines.iter().any(|line| line.stroke == stroke) {
                continue;
            }
            let data = format!("M{} {}h6", short(x), short(y - 0.8));
            let dashes: Vec<_> = dashes.iter().map(|&dash| short(dash)).collect();
            let mut stroke = vec![("stroke", color.to_string()), ("stroke-width", short(wide))];
            if !dashes.is_empty() {
                stroke.push(("stroke-dasharray", dashes.join(" ")));
            }
            stroke.push(("d", data));
            out += &element("path", &stroke);
            out += &text([x + 7.0, y], name);
            x += 9.5 + width(name, 2.4);
        }
        group(&[("id", "legend".into()), ("font-size", "2.4".into())], &out)
    }
}

/// The mark of an entrance.
fn triangle(at: [f64; 2]) -> String {
    let [x, y] = [at[0], at[1] - 1.2].map(short);
    element("path", &[("d", format!("M{x} {y}l1.15 2h-2.3z"))])
}

/// An arrow to the north.
fn north(at: [f64; 2]) -> String {
    let [x, y] = at.map(short);
    let out = element("path", &[("d", format!("M{x} {y}l2.6 11l-2.6 -2l-2.6 2z"))]);
    let words = text([at[0] - 1.1, at[1] + 14.6], "N");
    group(&[("id", "north".into()), ("font-size", "3".into())], &(out + &words))
}

/// A name without its survey.
fn last_part(name: &str) -> &str {
    name.rsplit('.').next().filter(|part| !part.is_empty()).unwrap_or(name)
}

/// The shortest of 1, 2, 5, 10 and so on that is at least so long.
fn step_of(least: f64) -> i64 {
    let mut step = round_length(least);
    while (step as f64) < least {
        step = round_length(step as f64 * 2.5);
    }
    step as i64
}

/// Centimetres as metres, without noughts behind.
fn length(centimetres: i64) -> String {
    let text = crate::text::metres(centimetres);
    format!("{} m", text.trim_end_matches('0').trim_end_matches('.'))
}
