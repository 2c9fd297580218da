//! A small reader of report pages, which fails where a page is not well-formed.

use std::collections::BTreeMap;

/// An element, or a text between tags.
#[derive(Debug)]
pub enum Part {
    Element(Element),
    Text(String),
}

#[derive(Debug, Default)]
pub struct Element {
    pub name: String,
    pub attributes: BTreeMap<String, String>,
    pub parts: Vec<Part>,
}

/// The element of a whole page.
pub fn read(page: &str) -> Element {
    let mut rest = page.strip_prefix("<!DOCTYPE html>\n").expect("a page");
    let root = element(&mut rest);
    assert_eq!(rest, "\n", "nothing comes after the page");
    root
}

fn element(rest: &mut &str) -> Element {
    let (head, after) = rest.split_once('>').expect("a tag has an end");
    *rest = after;
    let head = head.strip_prefix('<').expect("a tag begins here");
    let is_empty = head.ends_with('/');
    let mut element = start(head.trim_end_matches('/'));
    // Browsers take `<p/>` for a beginning; only these are empty for them.
    let in_svg = ["rect", "line", "path", "use"].contains(&element.name.as_str());
    assert_eq!(
        is_empty,
        in_svg && is_empty || element.name == "meta",
        "{head}"
    );
    if is_empty {
        return element;
    }
    loop {
        let (text, _) = rest.split_at(rest.find('<').expect("each element ends"));
        if !text.is_empty() {
            let text = if element.name == "style" {
                text.into()
            } else {
                unescaped(text)
            };
            element.parts.push(Part::Text(text));
        }
        *rest = &rest[text.len()..];
        if let Some(after) = rest.strip_prefix("</") {
            let (name, after) = after.split_once('>').expect("a tag has an end");
            assert_eq!(name, element.name, "ends what began last");
            *rest = after;
            return element;
        }
        let child = self::element(rest);
        element.parts.push(Part::Element(child));
    }
}

/// Name and attributes; each has a value in double quotes, and none comes twice.
fn start(head: &str) -> Element {
    let (name, mut rest) = head.split_once(' ').unwrap_or((head, ""));
    assert!(name.chars().all(|c| c.is_ascii_alphanumeric()), "{head}");
    let mut attributes = BTreeMap::new();
    while !rest.is_empty() {
        let (name, after) = rest.split_once("=\"").expect("an attribute has a value");
        let (value, after) = after.split_once('"').expect("a value has an end");
        let earlier = attributes.insert(name.to_string(), unescaped(value));
        assert!(earlier.is_none(), "{name} comes twice in {head}");
        rest = after.strip_prefix(' ').unwrap_or(after);
    }
    Element {
        name: name.into(),
        attributes,
        parts: Vec::new(),
    }
}

fn unescaped(text: &str) -> String {
    assert!(!text.contains(['<', '>']), "{text}");
    let mut plain = String::new();
    let mut parts = text.split('&');
    plain += parts.next().unwrap_or_default();
    for part in parts {
        let (name, after) = part.split_once(';').expect("an & begins an entity");
        plain += match name {
            "amp" => "&",
            "lt" => "<",
            "gt" => ">",
            "quot" => "\"",
            "#39" => "'",
            _ => panic!("there is no entity {name}"),
        };
        plain += after;
    }
    plain
}

impl Element {
    /// This element and all in it, in the order of the page.
    pub fn all(&self) -> Vec<&Element> {
        let inner = self.parts.iter().flat_map(|part| match part {
            Part::Element(element) => element.all(),
            Part::Text(_) => Vec::new(),
        });
        [self].into_iter().chain(inner).collect()
    }

    /// The elements of a class.
    pub fn of_class(&self, class: &str) -> Vec<&Element> {
        let has = |element: &&Element| element.get("class").split(' ').any(|one| one == class);
        self.all().into_iter().filter(has).collect()
    }

    /// The elements of a name.
    pub fn named(&self, name: &str) -> Vec<&Element> {
        let all = self.all().into_iter();
        all.filter(|element| element.name == name).collect()
    }

    /// The element of an id.
    pub fn with_id(&self, id: &str) -> &Element {
        let mut all = self.all().into_iter();
        let found = all.find(|element| element.get("id") == id);
        found.unwrap_or_else(|| panic!("nothing has the id {id}"))
    }

    /// The value of an attribute, empty where there is none.
    pub fn get(&self, name: &str) -> &str {
        self.attributes.get(name).map_or("", String::as_str)
    }

    /// All text in it.
    pub fn text(&self) -> String {
        let texts = self.parts.iter().map(|part| match part {
            Part::Element(element) => element.text(),
            Part::Text(text) => text.clone(),
        });
        texts.collect()
    }
}
