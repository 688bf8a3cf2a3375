//! Checks of drawings for the tests: tags that balance, marks on the sheet, labels that do not overlap.

/// An element's name, its attributes and the text that follows its opening tag.
pub struct Element<'a> {
    pub name: &'a str,
    pub attributes: Vec<(&'a str, &'a str)>,
    pub text: &'a str,
}

impl<'a> Element<'a> {
    pub fn get(&self, name: &str) -> Option<&'a str> {
        self.attributes.iter().find(|a| a.0 == name).map(|a| a.1)
    }

    pub fn number(&self, name: &str) -> f64 {
        self.get(name).and_then(|v| v.parse().ok()).unwrap_or_else(|| panic!("{} has no number {name}", self.name))
    }
}

/// The elements, or what is not well formed.
pub fn elements(xml: &str) -> Result<Vec<Element<'_>>, String> {
    let mut open = vec![];
    let mut elements = vec![];
    for piece in xml.split('<').skip(1) {
        let (tag, text) = piece.split_once('>').ok_or("a tag without an end")?;
        if text.contains('>') {
            return Err(format!("a bare > in {text}"));
        }
        if tag.starts_with('?') {
            continue;
        }
        if let Some(name) = tag.strip_prefix('/') {
            match open.pop() {
                Some(opened) if opened == name => continue,
                opened => return Err(format!("</{name}> closes {opened:?}")),
            }
        }
        let inner = tag.strip_suffix('/').unwrap_or(tag);
        let (name, rest) = inner.split_once(' ').unwrap_or((inner, ""));
        if inner.len() == tag.len() {
            open.push(name);
        }
        elements.push(Element { name, attributes: attributes(rest)?, text });
    }
    match open.is_empty() {
        true => Ok(elements),
        false => Err(format!("left open: {open:?}")),
    }
}

fn attributes(mut rest: &str) -> Result<Vec<(&str, &str)>, String> {
    let mut found = vec![];
    while let Some((name, after)) = rest.split_once("=\"") {
        let (value, more) = after.split_once('"').ok_or("an attribute without an end")?;
        found.push((name.trim(), value));
        rest = more;
    }
    match rest.trim() {
        "" => Ok(found),
        left => Err(format!("no attribute: {left}")),
    }
}

/// A box: left, top, right, bottom.
type Area = [f64; 4];

/// The box of a label, by the usual width of letters.
fn label(element: &Element) -> Area {
    let (x, y, size) = (element.number("x"), element.number("y"), element.number("font-size"));
    let wide = element.text.chars().count() as f64 * size * 0.58;
    let left = match element.get("text-anchor") {
        Some("middle") => x - wide / 2.0,
        Some("end") => x - wide,
        _ => x,
    };
    [left, y - size * 0.8, left + wide, y + size * 0.2]
}

fn area(element: &Element) -> Option<Area> {
    let n = |name| element.number(name);
    let round = |x: f64, y: f64, r: f64| [x - r, y - r, x + r, y + r];
    match element.name {
        "text" => Some(label(element)),
        "rect" => Some([n("x"), n("y"), n("x") + n("width"), n("y") + n("height")]),
        "circle" => Some(round(n("cx"), n("cy"), n("r"))),
        "line" => Some([n("x1").min(n("x2")), n("y1").min(n("y2")), n("x1").max(n("x2")), n("y1").max(n("y2"))]),
        "polyline" | "polygon" => Some(points(element.get("points").unwrap_or(""))),
        _ => None,
    }
}

fn points(list: &str) -> Area {
    let pair = |p: &str| p.split_once(',').and_then(|(x, y)| Some((x.parse::<f64>().ok()?, y.parse::<f64>().ok()?)));
    let spots: Vec<(f64, f64)> =
        list.split(' ').map(|p| pair(p).unwrap_or_else(|| panic!("{p} is no point"))).collect();
    let most = |f: fn(&(f64, f64)) -> f64| spots.iter().map(f).fold(f64::NEG_INFINITY, f64::max);
    [-most(|s| -s.0), -most(|s| -s.1), most(|s| s.0), most(|s| s.1)]
}

/// Panics where the drawing is not well formed, a mark leaves the sheet, or two labels overlap.
pub fn check_drawing(svg: &str) {
    let elements = elements(svg).unwrap_or_else(|e| panic!("{e}"));
    let sheet: Vec<f64> =
        elements[0].get("viewBox").expect("a view box").split(' ').map(|n| n.parse().expect("a number")).collect();
    for element in &elements {
        let Some([left, top, right, bottom]) = area(element) else { continue };
        let inside = left >= sheet[0] && top >= sheet[1] && right <= sheet[2] && bottom <= sheet[3];
        assert!(inside, "{} at {left} {top} {right} {bottom}: {}", element.name, element.text);
    }
    let labels: Vec<&Element> = elements.iter().filter(|e| e.name == "text").collect();
    for (k, a) in labels.iter().enumerate() {
        for b in &labels[..k] {
            let ([l, t, r, d], [l2, t2, r2, d2]) = (label(a), label(b));
            assert!(r <= l2 || r2 <= l || d <= t2 || d2 <= t, "`{}` overlaps `{}`", a.text, b.text);
        }
    }
}

#[test]
fn bad_drawings_are_noticed() {
    assert!(elements("<a><b></a></b>").is_err());
    assert!(elements("<a>").is_err());
    assert!(elements("<a b=\"1></a>").is_err());
    assert!(elements("<a b=\"1\"><c/></a>").is_ok());
}

#[test]
#[should_panic(expected = "circle at")]
fn a_mark_off_the_sheet_is_noticed() {
    check_drawing("<svg viewBox=\"0 0 10 10\"><circle cx=\"9\" cy=\"5\" r=\"2\"/></svg>");
}

#[test]
#[should_panic(expected = "overlaps")]
fn labels_that_overlap_are_noticed() {
    let label = |x| format!("<text x=\"{x}\" y=\"20\" font-size=\"10\">word</text>");
    check_drawing(&format!("<svg viewBox=\"0 0 99 99\">{}{}</svg>", label(1), label(20)));
}
