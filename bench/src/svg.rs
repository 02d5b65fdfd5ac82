//! The few shapes that the chart is made of.

pub const INK: &str = "#1f2937";
pub const FAINT: &str = "#e5e7eb";

/// Where text begins.
pub const MARGIN: f64 = 30.0;

pub struct Svg {
    body: String,
    width: f64,
}

pub enum Anchor {
    Start,
    Middle,
    End,
}

impl Svg {
    pub fn new(width: f64) -> Svg {
        Svg { body: String::new(), width }
    }

    pub fn rect(&mut self, x: f64, y: f64, width: f64, height: f64, fill: &str) {
        self.add(format!(r#"<rect x="{:.1}" y="{:.1}" width="{:.1}" height="{:.1}" fill="{}"/>"#, x, y, width, height, fill));
    }

    pub fn circle(&mut self, x: f64, y: f64, radius: f64, fill: &str) {
        self.add(format!(r#"<circle cx="{:.1}" cy="{:.1}" r="{:.1}" fill="{}"/>"#, x, y, radius, fill));
    }

    pub fn line(&mut self, from: (f64, f64), to: (f64, f64), colour: &str, width: f64, dashed: bool) {
        let dashes = if dashed { r#" stroke-dasharray="5 4""# } else { "" };
        let ends = format!(r#"x1="{:.1}" y1="{:.1}" x2="{:.1}" y2="{:.1}""#, from.0, from.1, to.0, to.1);
        self.add(format!(r#"<line {} stroke="{}" stroke-width="{}"{}/>"#, ends, colour, width, dashes));
    }

    pub fn text(&mut self, x: f64, y: f64, anchor: Anchor, size: u32, text: &str) {
        self.add(text_element(x, y, anchor, &format!(r#"font-size="{}""#, size), text));
    }

    pub fn bold(&mut self, x: f64, y: f64, anchor: Anchor, size: u32, text: &str) {
        self.add(text_element(x, y, anchor, &format!(r#"font-size="{}" font-weight="bold""#, size), text));
    }

    /// Text that runs upward.
    pub fn upward(&mut self, x: f64, y: f64, size: u32, text: &str) {
        let rest = format!(r#"font-size="{}" transform="rotate(-90 {:.1} {:.1})""#, size, x, y);
        self.add(text_element(x, y, Anchor::Middle, &rest, text));
    }

    /// On white ground, so high.
    pub fn finish(self, height: f64) -> String {
        let size = format!(r#"width="{0}" height="{1:.0}" viewBox="0 0 {0} {1:.0}""#, self.width, height);
        let font = r#"font-family="Helvetica, Arial, 'DejaVu Sans', sans-serif""#;
        let ground = format!(r##"<rect width="{}" height="{:.0}" fill="#ffffff"/>"##, self.width, height);
        format!("<svg xmlns=\"http://www.w3.org/2000/svg\" {} {}>\n{}\n{}</svg>\n", size, font, ground, self.body)
    }

    fn add(&mut self, element: String) {
        self.body += &element;
        self.body.push('\n');
    }
}

fn text_element(x: f64, y: f64, anchor: Anchor, rest: &str, text: &str) -> String {
    let anchor = match anchor {
        Anchor::Start => "start",
        Anchor::Middle => "middle",
        Anchor::End => "end",
    };
    format!(r#"<text x="{:.1}" y="{:.1}" text-anchor="{}" fill="{}" {}>{}</text>"#, x, y, anchor, INK, rest, text)
}
