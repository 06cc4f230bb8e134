//! The few shapes that are drawn. Places and sizes are whole pixels.

use std::fmt::{self, Write};

const STYLE: &str = "text{font:10px sans-serif;fill:#222}.small{font-size:8px}.head{font-size:12px;font-weight:bold}.mid{text-anchor:middle}\
.end{text-anchor:end}.white{fill:#fff}.tick{fill:#f1f1f1}.odd{fill:#e6e6e6}.gap{fill:#fafafa;stroke:#bbb;stroke-dasharray:3 3}\
.lane{stroke:#999}.on{fill:#7fb2e0;stroke:#2b6ca8}.rising{fill:url(#hatch);stroke:#d9a441}.want{fill:#fff;stroke:#333}\
.away{fill:#ddd;stroke:#999;stroke-dasharray:2 2}.give{fill:#bbb;stroke:#555}.done{fill:#3a9a4b}.no{fill:#c43c35}\
.box{fill:#fff;stroke:#333}.need{fill:none;stroke:#777;marker-end:url(#tip)}.halo{paint-order:stroke;stroke:#fff;stroke-width:3px}";
const DEFS: &str = "<defs><pattern id=\"hatch\" width=\"5\" height=\"5\" patternUnits=\"userSpaceOnUse\">\
<path d=\"M0 5L5 0\" stroke=\"#d9a441\"/></pattern><marker id=\"tip\" viewBox=\"0 0 8 8\" refX=\"8\" refY=\"4\" markerWidth=\"7\" \
markerHeight=\"7\" orient=\"auto\"><path d=\"M0 0L8 4L0 8z\" fill=\"#777\"/></marker></defs>";

/// Across, and down.
pub type At = (u32, u32);

pub struct Svg {
    body: String,
}

impl Svg {
    pub fn new() -> Self {
        Svg { body: String::new() }
    }

    fn put(&mut self, shape: fmt::Arguments) {
        // A string takes everything.
        let _ = self.body.write_fmt(shape);
        self.body.push('\n');
    }

    /// With a text that is shown when it's pointed at.
    pub fn rect(&mut self, class: &str, (x, y): At, (width, height): At, says: &str) {
        let says = title(says);
        self.put(format_args!("<rect class=\"{class}\" x=\"{x}\" y=\"{y}\" width=\"{width}\" height=\"{height}\">{says}</rect>"));
    }

    pub fn circle(&mut self, class: &str, (x, y): At, r: u32, says: &str) {
        let says = title(says);
        self.put(format_args!("<circle class=\"{class}\" cx=\"{x}\" cy=\"{y}\" r=\"{r}\">{says}</circle>"));
    }

    pub fn path(&mut self, class: &str, path: &str) {
        self.put(format_args!("<path class=\"{class}\" d=\"{path}\"/>"));
    }

    pub fn text(&mut self, class: &str, (x, y): At, text: &str) {
        self.put(format_args!("<text class=\"{class}\" x=\"{x}\" y=\"{y}\">{}</text>", escaped(text)));
    }

    pub fn finish(self, width: u32, height: u32) -> String {
        let size = format!("width=\"{width}\" height=\"{height}\" viewBox=\"0 0 {width} {height}\"");
        let paper = format!("<rect width=\"{width}\" height=\"{height}\" fill=\"#fff\"/>");
        let body = self.body;
        format!("<svg xmlns=\"http://www.w3.org/2000/svg\" {size}>\n<style>{STYLE}</style>\n{DEFS}\n{paper}\n{body}</svg>\n")
    }
}

fn title(says: &str) -> String {
    if says.is_empty() { String::new() } else { format!("<title>{}</title>", escaped(says)) }
}

fn escaped(text: &str) -> String {
    text.replace('&', "&amp;").replace('<', "&lt;").replace('>', "&gt;")
}
