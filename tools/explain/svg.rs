//! Drawing an SVG element, which holds its own colours: light ones, and dark ones for a dark screen.

const STYLE: &str = "
.explain text{font:13px sans-serif;fill:#1a1a1a}
.explain .small{font-size:11px}
.explain .strong{font-weight:bold}
.explain .paper{fill:#ffffff}
.explain .edge{stroke:#8a8a8a;fill:none}
.explain .dashed{stroke-dasharray:4 4}
.explain .blue{stroke:#1f5fa8;stroke-width:2;fill:none}
.explain .body{fill:#1f5fa8;fill-opacity:.14}
.explain .face{fill:#c22f2f;fill-opacity:.16}
.explain .corner{fill:#1f5fa8;stroke:#1f5fa8;stroke-width:2}
.explain .idle{fill:#ffffff;stroke:#1f5fa8;stroke-width:2}
.explain .drop{stroke:#c22f2f;stroke-dasharray:2 3;fill:none}
.explain .point{fill:#c22f2f}
.explain .shade{fill:#f2a33a}
.explain .gap{fill:#c9c9c9}
.explain .cell{stroke:#1a1a1a;stroke-width:2.5;fill:none}
@media screen and (prefers-color-scheme:dark){
.explain text{fill:#f0f0f0}
.explain .paper{fill:#17191c}
.explain .edge{stroke:#7d828a}
.explain .blue{stroke:#7db4f5}
.explain .body{fill:#7db4f5}
.explain .face{fill:#ff8a80}
.explain .corner{fill:#7db4f5;stroke:#7db4f5}
.explain .idle{fill:#17191c;stroke:#7db4f5}
.explain .drop{stroke:#ff8a80}
.explain .point{fill:#ff8a80}
.explain .shade{fill:#a85f00}
.explain .gap{fill:#4a4e55}
.explain .cell{stroke:#f0f0f0}
}
";

pub type Spot = (f64, f64);

pub enum Anchor {
    Start,
    Middle,
    End,
}

pub struct Drawing {
    width: f64,
    height: f64,
    elements: String,
}

/// Text as it may stand in an element.
pub fn escaped(text: &str) -> String {
    text.replace('&', "&amp;").replace('<', "&lt;").replace('>', "&gt;").replace('"', "&quot;")
}

fn number(x: f64) -> String {
    let rounded = format!("{x:.1}");
    rounded.strip_suffix(".0").unwrap_or(&rounded).to_string()
}

impl Drawing {
    pub fn new(width: f64, height: f64) -> Drawing {
        let mut drawing = Drawing { width, height, elements: String::new() };
        drawing.rectangle("paper", (0.0, 0.0), (width, height), 1.0);
        drawing
    }

    fn add(&mut self, element: String) {
        self.elements += &element;
        self.elements.push('\n');
    }

    pub fn line(&mut self, class: &str, (x1, y1): Spot, (x2, y2): Spot) {
        let [x1, y1, x2, y2] = [x1, y1, x2, y2].map(number);
        self.add(format!("<line class=\"{class}\" x1=\"{x1}\" y1=\"{y1}\" x2=\"{x2}\" y2=\"{y2}\"/>"));
    }

    pub fn polygon(&mut self, class: &str, corners: &[Spot]) {
        let points: Vec<_> = corners.iter().map(|&(x, y)| format!("{},{}", number(x), number(y))).collect();
        self.add(format!("<polygon class=\"{class}\" points=\"{}\"/>", points.join(" ")));
    }

    pub fn circle(&mut self, class: &str, (x, y): Spot, radius: f64) {
        let [x, y, radius] = [x, y, radius].map(number);
        self.add(format!("<circle class=\"{class}\" cx=\"{x}\" cy=\"{y}\" r=\"{radius}\"/>"));
    }

    pub fn rectangle(&mut self, class: &str, (x, y): Spot, (width, height): Spot, opacity: f64) {
        let [x, y, width, height] = [x, y, width, height].map(number);
        let opacity = if opacity < 1.0 { format!(" fill-opacity=\"{opacity:.2}\"") } else { String::new() };
        self.add(format!(
            "<rect class=\"{class}\" x=\"{x}\" y=\"{y}\" width=\"{width}\" height=\"{height}\"{opacity}/>"
        ));
    }

    pub fn text(&mut self, class: &str, anchor: Anchor, (x, y): Spot, text: &str) {
        let anchor = match anchor {
            Anchor::Start => "start",
            Anchor::Middle => "middle",
            Anchor::End => "end",
        };
        let ([x, y], text) = ([x, y].map(number), escaped(text));
        self.add(format!(
            "<text class=\"{class}\" text-anchor=\"{anchor}\" x=\"{x}\" y=\"{y}\">{text}</text>"
        ));
    }

    /// The element, with a name for those who cannot see it.
    pub fn finished(self, id: &str, name: &str) -> String {
        let [width, height] = [self.width, self.height].map(number);
        let name = escaped(name);
        format!(
            "<svg xmlns=\"http://www.w3.org/2000/svg\" id=\"{id}\" class=\"explain\" width=\"{width}\" \
             height=\"{height}\" viewBox=\"0 0 {width} {height}\" role=\"img\" aria-label=\"{name}\">\n\
             <style>{STYLE}</style>\n{}</svg>\n",
            self.elements
        )
    }
}
