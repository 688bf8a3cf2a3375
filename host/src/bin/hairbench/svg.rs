//! Marks on a sheet, as SVG elements.

use std::fmt::Write;

pub type Spot = [f64; 2];

pub const INK: &str = "#14202b";
pub const FAINT: &str = "#566573";
pub const REST: &str = "#a9b8c6";
pub const DRAPE: &str = "#12395e";
pub const PIN: &str = "#c2410c";
pub const PICK: &str = "#0b7a5c";

/// Text as it stands in SVG and HTML.
pub fn escaped(text: &str) -> String {
    text.replace('&', "&amp;").replace('<', "&lt;").replace('>', "&gt;").replace('"', "&quot;")
}

#[derive(Default)]
pub struct Sheet {
    body: String,
}

#[derive(Clone, Copy)]
pub enum Side {
    Left,
    Middle,
    Right,
}

impl Sheet {
    fn put(&mut self, element: std::fmt::Arguments) {
        let _ = writeln!(self.body, "{element}");
    }

    pub fn text(&mut self, [x, y]: Spot, size: f64, colour: &str, side: Side, text: &str) {
        let anchor = match side {
            Side::Left => "start",
            Side::Middle => "middle",
            Side::Right => "end",
        };
        let text = escaped(text);
        self.put(format_args!(
            r#"<text x="{x:.1}" y="{y:.1}" font-size="{size}" fill="{colour}" text-anchor="{anchor}">{text}</text>"#
        ));
    }

    pub fn bold(&mut self, [x, y]: Spot, size: f64, text: &str) {
        let text = escaped(text);
        self.put(format_args!(
            r#"<text x="{x:.1}" y="{y:.1}" font-size="{size}" font-weight="600" fill="{INK}">{text}</text>"#
        ));
    }

    pub fn panel(&mut self, [x, y]: Spot, [w, h]: Spot, fill: &str, edge: &str) {
        self.put(format_args!(
            r#"<rect x="{x:.1}" y="{y:.1}" width="{w:.1}" height="{h:.1}" rx="4" fill="{fill}" stroke="{edge}"/>"#
        ));
    }

    pub fn curve(&mut self, spots: &[Spot], width: f64, colour: &str) {
        let points: Vec<String> = spots.iter().map(|[x, y]| format!("{x:.2},{y:.2}")).collect();
        let points = points.join(" ");
        self.put(format_args!(
            r#"<polyline points="{points}" fill="none" stroke="{colour}" stroke-width="{width}" stroke-linecap="round" stroke-linejoin="round"/>"#
        ));
    }

    pub fn line(&mut self, [x1, y1]: Spot, [x2, y2]: Spot, width: f64, colour: &str) {
        self.put(format_args!(
            r#"<line x1="{x1:.2}" y1="{y1:.2}" x2="{x2:.2}" y2="{y2:.2}" stroke="{colour}" stroke-width="{width}"/>"#
        ));
    }

    pub fn dot(&mut self, [x, y]: Spot, radius: f64, colour: &str) {
        self.put(format_args!(r#"<circle cx="{x:.2}" cy="{y:.2}" r="{radius}" fill="{colour}"/>"#));
    }

    pub fn square(&mut self, [x, y]: Spot) {
        let (x, y) = (x - 4.0, y - 4.0);
        self.put(format_args!(
            r##"<rect x="{x:.2}" y="{y:.2}" width="8" height="8" fill="{PIN}" stroke="#ffffff" stroke-width="1"/>"##
        ));
    }

    pub fn diamond(&mut self, [x, y]: Spot) {
        let r = 9.0;
        let points = format!("{:.2},{y:.2} {x:.2},{:.2} {:.2},{y:.2} {x:.2},{:.2}", x - r, y - r, x + r, y + r);
        self.put(format_args!(r#"<polygon points="{points}" fill="none" stroke="{PIN}" stroke-width="1.6"/>"#));
    }

    pub fn ring(&mut self, [x, y]: Spot) {
        self.put(format_args!(
            r#"<circle cx="{x:.2}" cy="{y:.2}" r="6" fill="none" stroke="{PICK}" stroke-width="2"/>"#
        ));
    }

    pub fn cross(&mut self, [x, y]: Spot) {
        self.line([x - 5.0, y - 5.0], [x + 5.0, y + 5.0], 2.2, PICK);
        self.line([x - 5.0, y + 5.0], [x + 5.0, y - 5.0], 2.2, PICK);
    }

    pub fn dashes(&mut self, [x1, y1]: Spot, [x2, y2]: Spot) {
        self.put(format_args!(
            r#"<line x1="{x1:.2}" y1="{y1:.2}" x2="{x2:.2}" y2="{y2:.2}" stroke="{PICK}" stroke-width="1.4" stroke-dasharray="5 4"/>"#
        ));
    }

    /// The whole drawing, on white.
    pub fn finished(self, [w, h]: Spot, title: &str) -> String {
        let (title, body) = (escaped(title), self.body);
        format!(
            r##"<?xml version="1.0" encoding="UTF-8"?>
<svg xmlns="http://www.w3.org/2000/svg" viewBox="0 0 {w} {h}" width="{w}" height="{h}" font-family="system-ui, 'Segoe UI', 'DejaVu Sans', Arial, sans-serif" role="img">
<title>{title}</title>
<rect x="0" y="0" width="{w}" height="{h}" fill="#ffffff"/>
{body}</svg>
"##
        )
    }
}
