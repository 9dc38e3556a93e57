//! A small reader of XML that takes nothing but what is well-formed.

/// An element.
#[derive(Debug, Clone, Default)]
pub struct Element {
    pub name: String,
    pub attributes: Vec<(String, String)>,
    pub children: Vec<Element>,
    /// The text in it, that of its children left out.
    pub text: String,
}

impl Element {
    /// An attribute's value.
    #[track_caller]
    pub fn get(&self, name: &str) -> &str {
        self.find(name).unwrap_or_else(|| panic!("no {name} in {self:?}"))
    }

    pub fn find(&self, name: &str) -> Option<&str> {
        self.attributes.iter().find(|(own, _)| own == name).map(|(_, value)| &value[..])
    }

    #[track_caller]
    pub fn number(&self, name: &str) -> f64 {
        let value = self.get(name).trim_end_matches("mm");
        value.parse().unwrap_or_else(|_| panic!("{name}={value}"))
    }

    /// It and all that are in it.
    pub fn all(&self) -> Vec<&Element> {
        let mut all = vec![self];
        self.children.iter().for_each(|child| all.extend(child.all()));
        all
    }

    /// The element of this id.
    pub fn id(&self, id: &str) -> Option<&Element> {
        self.all().into_iter().find(|element| element.find("id") == Some(id))
    }
}

/// The one element of a text.
#[track_caller]
pub fn parse(text: &str) -> Element {
    let mut rest = text;
    let mut element = element(&mut rest);
    assert_eq!(rest.trim(), "", "text behind the end");
    let mut seen = Vec::new();
    for id in element.all().into_iter().filter_map(|element| element.find("id")) {
        assert!(!seen.contains(&id), "{id} twice");
        seen.push(id);
    }
    element.text = element.text.trim().into();
    element
}

#[track_caller]
fn element(rest: &mut &str) -> Element {
    let tag = rest.strip_prefix('<').expect("an element");
    let (tag, behind) = tag.split_once('>').expect("the end of a tag");
    *rest = behind;
    let (tag, empty) = tag.strip_suffix('/').map_or((tag, false), |tag| (tag, true));
    let (name, attributes) = tag.split_once(' ').unwrap_or((tag, ""));
    assert!(name.bytes().all(|byte| byte.is_ascii_alphanumeric()), "a name: {name:?}");
    let mut element =
        Element { name: name.into(), attributes: listed(attributes), ..Element::default() };
    while !empty {
        let (text, _) = rest.split_once('<').expect("an end tag");
        element.text += &plain(text);
        *rest = &rest[text.len()..];
        if let Some(end) = rest.strip_prefix("</") {
            let end = end.strip_prefix(name).and_then(|end| end.strip_prefix('>'));
            *rest = end.unwrap_or_else(|| panic!("no end of {name}"));
            return element;
        }
        element.children.push(self::element(rest));
    }
    element
}

#[track_caller]
fn listed(mut text: &str) -> Vec<(String, String)> {
    let mut attributes: Vec<(String, String)> = Vec::new();
    while !text.trim().is_empty() {
        let (name, rest) = text.split_once("=\"").expect("an attribute");
        let (value, rest) = rest.split_once('"').expect("the end of a value");
        let name = name.trim();
        assert!(attributes.iter().all(|(other, _)| other != name), "{name} twice");
        assert!(!name.is_empty() && !value.contains('<'));
        attributes.push((name.into(), plain(value)));
        text = rest;
    }
    attributes
}

/// Text with its entities resolved; no other `&` is in it, and no control character.
#[track_caller]
fn plain(text: &str) -> String {
    let bad = |letter: char| {
        (letter < ' ' && letter != '\n') || matches!(letter, '\u{fffe}' | '\u{ffff}')
    };
    assert!(!text.contains(bad), "{text:?}");
    let mut parts = text.split('&');
    let mut out = String::from(parts.next().unwrap_or_default());
    for part in parts {
        let (name, rest) = part.split_once(';').expect("the end of an entity");
        out.push(match name {
            "amp" => '&',
            "lt" => '<',
            "gt" => '>',
            "quot" => '"',
            "#39" => '\'',
            _ => panic!("&{name};"),
        });
        out += rest;
    }
    out
}
