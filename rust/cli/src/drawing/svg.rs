//! Text of an SVG picture: plain elements with attributes, no style sheet.

/// Text in which nothing is taken for markup, and nothing is that XML cannot hold.
/// Control characters are escaped before.
pub fn plain(text: &str) -> String {
    let mut out = String::with_capacity(text.len());
    for letter in text.chars() {
        match letter {
            '&' => out += "&amp;",
            '<' => out += "&lt;",
            '>' => out += "&gt;",
            '"' => out += "&quot;",
            '\'' => out += "&#39;",
            '\u{fffe}' | '\u{ffff}' => out.push('\u{fffd}'),
            _ => out.push(letter),
        }
    }
    out
}

/// A number of millimetres, to the hundredth.
pub fn short(number: f64) -> String {
    let text = format!("{number:.2}");
    let text = text.trim_end_matches('0').trim_end_matches('.');
    if text == "-0" {
        "0".into()
    } else {
        text.into()
    }
}

/// An element without content.
pub fn element(name: &str, attributes: &[(&str, String)]) -> String {
    format!("<{name}{}/>\n", listed(attributes))
}

fn listed(attributes: &[(&str, String)]) -> String {
    attributes.iter().map(|(name, value)| format!(" {name}=\"{}\"", plain(value))).collect()
}

/// A group.
pub fn group(attributes: &[(&str, String)], content: &str) -> String {
    match content {
        "" => String::new(),
        _ => format!("<g{}>\n{content}</g>\n", listed(attributes)),
    }
}

/// A line of text that begins at a place.
pub fn text(at: [f64; 2], words: &str) -> String {
    let [x, y] = at.map(short);
    format!("<text x=\"{x}\" y=\"{y}\">{}</text>\n", plain(words))
}

/// A path through these places, each run of them by itself.
#[derive(Default)]
pub struct Path {
    pub data: String,
    last: Option<[i64; 2]>,
}

impl Path {
    /// A line, that goes on from the last one where that ended here.
    pub fn line(&mut self, from: [i64; 2], to: [i64; 2]) {
        if self.last != Some(from) {
            self.data += &format!("M{} {}", from[0], from[1]);
        }
        self.data += &format!(" {} {}", to[0], to[1]);
        self.last = Some(to);
    }
}

#[cfg(test)]
mod tests {
    use super::*;

    #[test]
    fn hostile_texts() {
        let due = "&lt;a b=&#39;c&#39; d=&quot;e&quot;&gt;&amp;\u{fffd}";
        assert_eq!(plain("<a b='c' d=\"e\">&\u{ffff}"), due);
        assert_eq!(element("g", &[("id", "\"<".into())]), "<g id=\"&quot;&lt;\"/>\n");
    }

    #[test]
    fn numbers() {
        assert_eq!([0.0, -0.001, 1.5, 20.0, 2.346].map(short), ["0", "0", "1.5", "20", "2.35"]);
    }

    #[test]
    fn runs_of_legs() {
        let mut path = Path::default();
        path.line([0, 0], [1, 2]);
        path.line([1, 2], [3, -4]);
        path.line([0, 0], [0, 0]);
        assert_eq!(path.data, "M0 0 1 2 3 -4M0 0 0 0");
    }
}
