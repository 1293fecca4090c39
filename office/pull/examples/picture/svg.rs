//! The few elements of SVG that a picture of a season has.

use std::fmt::Write as _;

/// A picture as it comes to be.
pub struct Svg {
    out: String,
}

/// Where a text stands beside its point.
#[derive(Clone, Copy)]
pub enum Anchor {
    Start,
    Middle,
    End,
}

impl Svg {
    /// White, of this width and height.
    pub fn new(width: f64, height: f64) -> Svg {
        let mut svg = Svg { out: String::new() };
        svg.put(format_args!(
            "<svg xmlns=\"http://www.w3.org/2000/svg\" width=\"{width:.0}\" height=\"{height:.0}\" \
             viewBox=\"0 0 {width:.0} {height:.0}\" font-family=\"sans-serif\">"
        ));
        svg.rectangle((0.0, 0.0), (width, height), "#ffffff");
        svg
    }

    fn put(&mut self, element: std::fmt::Arguments) {
        writeln!(self.out, "{element}").expect("a String takes all");
    }

    pub fn rectangle(&mut self, (x, y): (f64, f64), (width, height): (f64, f64), fill: &str) {
        self.put(format_args!(
            "<rect x=\"{x:.1}\" y=\"{y:.1}\" width=\"{width:.1}\" height=\"{height:.1}\" \
             fill=\"{fill}\"/>"
        ));
    }

    pub fn line(&mut self, (x1, y1): (f64, f64), (x2, y2): (f64, f64), stroke: &str) {
        self.put(format_args!(
            "<line x1=\"{x1:.1}\" y1=\"{y1:.1}\" x2=\"{x2:.1}\" y2=\"{y2:.1}\" \
             stroke=\"{stroke}\"/>"
        ));
    }

    pub fn circle(&mut self, (x, y): (f64, f64), radius: f64, fill: &str, stroke: &str) {
        self.put(format_args!(
            "<circle cx=\"{x:.1}\" cy=\"{y:.1}\" r=\"{radius:.1}\" fill=\"{fill}\" \
             stroke=\"{stroke}\" stroke-width=\"1.5\"/>"
        ));
    }

    /// Two strokes across each other.
    pub fn cross(&mut self, (x, y): (f64, f64), half: f64, stroke: &str) {
        let (left, right, top, bottom) = (x - half, x + half, y - half, y + half);
        self.path(
            &format!("M{left:.1} {top:.1}L{right:.1} {bottom:.1}M{left:.1} {bottom:.1}L{right:.1} {top:.1}"),
            stroke,
        );
    }

    /// A line along a path that is already in SVG's letters.
    pub fn path(&mut self, path: &str, stroke: &str) {
        self.put(format_args!(
            "<path d=\"{path}\" fill=\"none\" stroke=\"{stroke}\" stroke-width=\"2\"/>"
        ));
    }

    pub fn text(&mut self, (x, y): (f64, f64), size: u32, anchor: Anchor, text: &str) {
        self.text_in((x, y), size, anchor, "#222222", text);
    }

    pub fn text_in(
        &mut self,
        (x, y): (f64, f64),
        size: u32,
        anchor: Anchor,
        fill: &str,
        text: &str,
    ) {
        let anchor = match anchor {
            Anchor::Start => "start",
            Anchor::Middle => "middle",
            Anchor::End => "end",
        };
        let text = text.replace('&', "&amp;").replace('<', "&lt;").replace('>', "&gt;");
        self.put(format_args!(
            "<text x=\"{x:.1}\" y=\"{y:.1}\" font-size=\"{size}\" text-anchor=\"{anchor}\" \
             fill=\"{fill}\">{text}</text>"
        ));
    }

    /// A text that reads upwards, its middle at a point.
    pub fn upwards(&mut self, (x, y): (f64, f64), size: u32, text: &str) {
        self.put(format_args!("<g transform=\"translate({x:.1} {y:.1}) rotate(-90)\">"));
        self.text((0.0, 0.0), size, Anchor::Middle, text);
        self.put(format_args!("</g>"));
    }

    pub fn finish(mut self) -> String {
        self.out += "</svg>\n";
        self.out
    }
}

/// Whether a text is one element whose tags are balanced, with quoted attributes and
/// with no number that is none.
#[cfg(test)]
pub fn well_formed(text: &str) -> Result<(), String> {
    let mut open: Vec<&str> = Vec::new();
    for (i, part) in text.split('<').enumerate().skip(1) {
        let (tag, after) = part.split_once('>').ok_or(format!("tag {i} has no end"))?;
        if tag.contains("NaN") || tag.contains("inf") {
            return Err(format!("no number: {tag}"));
        }
        if tag.matches('"').count() % 2 != 0 {
            return Err(format!("a quotation mark is missing: {tag}"));
        }
        let name = tag.trim_matches('/').split(' ').next().unwrap_or("");
        match (tag.starts_with('/'), tag.ends_with('/')) {
            (true, _) if open.pop() != Some(name) => return Err(format!("{tag} closes nothing")),
            (false, false) => open.push(name),
            _ => {}
        }
        if after.contains('>') || (open.is_empty() && !after.trim().is_empty()) {
            return Err(format!("text out of its place: {after}"));
        }
    }
    if open.is_empty() && text.starts_with("<svg ") {
        Ok(())
    } else {
        Err(format!("{open:?} stay open"))
    }
}

#[cfg(test)]
mod tests {
    use super::*;

    #[test]
    fn what_is_well_formed() {
        let mut svg = Svg::new(10.0, 10.0);
        svg.text((1.0, 2.0), 9, Anchor::End, "F < 2 & more");
        assert_eq!(well_formed(&svg.finish()), Ok(()));
        for bad in [
            "",
            "<svg a=\"1\">",
            "<svg ><g></svg></g>",
            "<svg x=\"1/>",
            "<svg x=\"NaN\"/>",
            "<svg x=\"inf\"/>",
            "<svg /> more",
        ] {
            assert!(well_formed(bad).is_err(), "{bad}");
        }
    }
}
