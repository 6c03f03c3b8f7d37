//! A picture, element by element, as SVG.

use std::fmt::Write;

/// From the left and from the top.
pub type Place = (f64, f64);

pub struct Picture {
    width: f64,
    height: f64,
    elements: String,
}

/// Letters that would be taken for marks of the picture, as what stands for
/// them.
fn plain(words: &str) -> String {
    words
        .replace('&', "&amp;")
        .replace('<', "&lt;")
        .replace('>', "&gt;")
}

impl Picture {
    /// An empty picture on white.
    pub fn new(width: f64, height: f64) -> Picture {
        let mut picture = Picture {
            width,
            height,
            elements: String::new(),
        };
        picture.add(format!(
            "<rect width=\"{}\" height=\"{}\" fill=\"#ffffff\"/>",
            width, height
        ));
        picture
    }

    fn add(&mut self, element: String) {
        self.elements.push_str(&element);
        self.elements.push('\n');
    }

    /// `looks` are the element's further attributes, here and below.
    pub fn text(&mut self, at: Place, looks: &str, words: &str) {
        let words = plain(words);
        self.add(format!(
            "<text x=\"{:.1}\" y=\"{:.1}\" {}>{}</text>",
            at.0, at.1, looks, words
        ));
    }

    pub fn line(&mut self, from: Place, to: Place, looks: &str) {
        self.add(format!(
            "<line x1=\"{:.1}\" y1=\"{:.1}\" x2=\"{:.1}\" y2=\"{:.1}\" {}/>",
            from.0, from.1, to.0, to.1, looks
        ));
    }

    /// A line through many places.
    pub fn curve(&mut self, places: &[Place], looks: &str) {
        let mut points = String::new();
        for (x, y) in places {
            write!(points, "{:.1},{:.1} ", x, y).expect("a string takes all");
        }
        let points = points.trim_end();
        self.add(format!(
            "<polyline points=\"{}\" fill=\"none\" {}/>",
            points, looks
        ));
    }

    /// A dot that shows the words when it is pointed at.
    pub fn dot(&mut self, at: Place, looks: &str, words: &str) {
        let words = plain(words);
        self.add(format!(
            "<circle cx=\"{:.1}\" cy=\"{:.1}\" {}><title>{}</title></circle>",
            at.0, at.1, looks, words
        ));
    }

    /// The whole picture, under a name.
    pub fn finish(&self, name: &str) -> String {
        format!(
            "<svg xmlns=\"http://www.w3.org/2000/svg\" viewBox=\"0 0 {w} {h}\" \
             width=\"{w}\" height=\"{h}\" role=\"img\" \
             font-family=\"Helvetica, Arial, 'DejaVu Sans', sans-serif\">\n\
             <title>{name}</title>\n{elements}</svg>\n",
            w = self.width,
            h = self.height,
            name = plain(name),
            elements = self.elements
        )
    }
}
