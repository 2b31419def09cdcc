//! Pictures as SVG: a few shapes, written as text.

use std::fmt::Write;

/// How a text stands at its point.
#[derive(Clone, Copy)]
pub enum Anchor {
    Start,
    Middle,
    End,
}

pub const BLACK: &str = "#222222";
pub const GRAY: &str = "#d0d0d0";
const FONT: &str = "font-family=\"Helvetica, Arial, sans-serif\"";

pub struct Svg {
    width: f64,
    height: f64,
    shapes: String,
}

impl Svg {
    pub fn new(width: f64, height: f64) -> Svg {
        Svg { width, height, shapes: String::new() }
    }

    fn shape(&mut self, shape: std::fmt::Arguments) {
        writeln!(self.shapes, "{shape}").expect("a string takes all text");
    }

    pub fn text(&mut self, x: f64, y: f64, size: f64, anchor: Anchor, text: &str) {
        let anchor = match anchor {
            Anchor::Start => "start",
            Anchor::Middle => "middle",
            Anchor::End => "end",
        };
        let text = text.replace('&', "&amp;").replace('<', "&lt;");
        self.shape(format_args!(
            "<text x=\"{x:.1}\" y=\"{y:.1}\" font-size=\"{size}\" text-anchor=\"{anchor}\" \
             fill=\"{BLACK}\" {FONT}>{text}</text>"
        ));
    }

    pub fn upright_text(&mut self, x: f64, y: f64, size: f64, text: &str) {
        self.shape(format_args!("<g transform=\"translate({x:.1} {y:.1}) rotate(-90)\">"));
        self.text(0.0, 0.0, size, Anchor::Middle, text);
        self.shape(format_args!("</g>"));
    }

    pub fn line(&mut self, from: (f64, f64), to: (f64, f64), color: &str, dashed: bool) {
        self.path(&[from, to], color, 1.0, dashed);
    }

    pub fn path(&mut self, points: &[(f64, f64)], color: &str, width: f64, dashed: bool) {
        let points: Vec<String> = points.iter().map(|(x, y)| format!("{x:.1},{y:.1}")).collect();
        let dashes = if dashed { " stroke-dasharray=\"5 4\"" } else { "" };
        self.shape(format_args!(
            "<polyline points=\"{}\" fill=\"none\" stroke=\"{color}\" stroke-width=\"{width}\"{dashes}/>",
            points.join(" ")
        ));
    }

    pub fn dot(&mut self, at: (f64, f64), color: &str) {
        let (x, y) = at;
        self.shape(format_args!("<circle cx=\"{x:.1}\" cy=\"{y:.1}\" r=\"4\" fill=\"{color}\" stroke=\"white\" stroke-width=\"0.7\"/>"));
    }

    pub fn finish(self) -> String {
        let Svg { width, height, shapes } = self;
        format!(
            "<svg xmlns=\"http://www.w3.org/2000/svg\" width=\"{width}\" height=\"{height}\" \
             viewBox=\"0 0 {width} {height}\">\n\
             <rect width=\"{width}\" height=\"{height}\" fill=\"white\"/>\n{shapes}</svg>\n"
        )
    }
}
