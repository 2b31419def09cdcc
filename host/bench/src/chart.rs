//! Charts: lines over two axes, and rows of dots over one.

use crate::svg::{Anchor, Svg, BLACK, GRAY};

/// Colours that the colour-blind can tell apart (Okabe and Ito's).
pub const COLORS: [&str; 7] = ["#0072b2", "#d55e00", "#009e73", "#cc79a7", "#e69f00", "#56b4e9", "#555555"];

const WIDTH: f64 = 820.0;
const TITLE_HEIGHT: f64 = 34.0;
const LEGEND_ROW: f64 = 18.0;
const LEGEND_COLUMN: f64 = 175.0;
const LEGEND_COLUMNS: usize = 4;
const AXIS_HEIGHT: f64 = 48.0;
const RIGHT: f64 = 30.0;

#[derive(Clone, Copy, PartialEq, Eq)]
pub enum Scale {
    Linear,
    /// By powers of this.
    Log(u32),
}

pub struct Axis {
    pub label: String,
    pub scale: Scale,
    pub from: f64,
    pub to: f64,
    /// Between two ticks of a linear axis.
    pub step: f64,
}

impl Axis {
    /// An axis by powers of `base` that has room for all values.
    pub fn log(label: &str, base: u32, values: impl Iterator<Item = f64>) -> Axis {
        let exponents: Vec<f64> = values.map(|value| value.log(base.into())).collect();
        let least = exponents.iter().copied().fold(f64::INFINITY, f64::min).floor();
        let most = exponents.iter().copied().fold(f64::NEG_INFINITY, f64::max).ceil().max(least + 1.0);
        let power = |exponent: f64| f64::from(base).powf(exponent);
        Axis {
            label: label.to_string(),
            scale: Scale::Log(base),
            from: power(least),
            to: power(most),
            step: 0.0,
        }
    }

    /// A linear axis from 0 to a value at least, with ticks at round numbers.
    pub fn linear(label: &str, least_end: f64) -> Axis {
        const STEPS: [f64; 5] = [0.1, 0.25, 0.5, 1.0, 2.0];
        let step = STEPS.into_iter().find(|step| least_end / step <= 12.0).unwrap_or(least_end / 10.0);
        let to = (least_end / step).ceil() * step;
        Axis { label: label.to_string(), scale: Scale::Linear, from: 0.0, to, step }
    }

    /// Where a value lies, from 0 to 1.
    fn share(&self, value: f64) -> f64 {
        match self.scale {
            Scale::Linear => (value - self.from) / (self.to - self.from),
            Scale::Log(_) => (value / self.from).ln() / (self.to / self.from).ln(),
        }
    }

    fn ticks(&self) -> Vec<(f64, String)> {
        match self.scale {
            Scale::Linear => {
                let count = ((self.to - self.from) / self.step + 0.5) as usize;
                (0..=count)
                    .map(|at| self.from + self.step * at as f64)
                    .map(|value| (value, plain(value)))
                    .collect()
            }
            Scale::Log(base) => {
                let (first, last) = (exponent_of(self.from, base), exponent_of(self.to, base));
                // No more than eight labels fit.
                let stride = ((last - first) / 8 + 1) as usize;
                let label = |exponent: i32| {
                    if base == 10 {
                        plain(10f64.powi(exponent))
                    } else {
                        format!("{base}^{exponent}")
                    }
                };
                (first..=last).step_by(stride).map(|at| (f64::from(base).powi(at), label(at))).collect()
            }
        }
    }
}

fn exponent_of(value: f64, base: u32) -> i32 {
    value.log(base.into()).round() as i32
}

/// A number as short as it can be said.
fn plain(value: f64) -> String {
    if value != 0.0 && !(1e-3..1e6).contains(&value) {
        return format!("{value:e}");
    }
    let text = format!("{value:.3}");
    text.trim_end_matches('0').trim_end_matches('.').to_string()
}

pub struct Line {
    pub label: String,
    pub points: Vec<(f64, f64)>,
    /// A line to compare with, and no measurement.
    pub is_guide: bool,
}

/// The frame of a chart's field.
struct Field {
    left: f64,
    right: f64,
    top: f64,
    bottom: f64,
}

impl Field {
    fn x(&self, axis: &Axis, value: f64) -> f64 {
        self.left + (self.right - self.left) * axis.share(value)
    }

    fn y(&self, axis: &Axis, value: f64) -> f64 {
        self.bottom - (self.bottom - self.top) * axis.share(value)
    }
}

fn legend_height(labels: &[&str]) -> f64 {
    LEGEND_ROW * ((labels.len() + LEGEND_COLUMNS - 1) / LEGEND_COLUMNS) as f64
}

fn draw_legend(svg: &mut Svg, title: &str, labels: &[&str], left: f64) {
    svg.text(WIDTH / 2.0, 21.0, 15.0, Anchor::Middle, title);
    for (at, label) in labels.iter().enumerate() {
        let x = left + LEGEND_COLUMN * (at % LEGEND_COLUMNS) as f64;
        let y = TITLE_HEIGHT + LEGEND_ROW * (at / LEGEND_COLUMNS) as f64 + 8.0;
        svg.dot((x, y), COLORS[at % COLORS.len()]);
        svg.text(x + 9.0, y + 4.0, 12.0, Anchor::Start, label);
    }
}

fn draw_x_axis(svg: &mut Svg, field: &Field, axis: &Axis) {
    for (value, label) in axis.ticks() {
        let x = field.x(axis, value);
        svg.line((x, field.top), (x, field.bottom), GRAY, false);
        svg.text(x, field.bottom + 17.0, 12.0, Anchor::Middle, &label);
    }
    svg.text((field.left + field.right) / 2.0, field.bottom + 38.0, 13.0, Anchor::Middle, &axis.label);
}

fn draw_y_axis(svg: &mut Svg, field: &Field, axis: &Axis) {
    for (value, label) in axis.ticks() {
        let y = field.y(axis, value);
        svg.line((field.left, y), (field.right, y), GRAY, false);
        svg.text(field.left - 7.0, y + 4.0, 12.0, Anchor::End, &label);
    }
    svg.upright_text(18.0, (field.top + field.bottom) / 2.0, 13.0, &axis.label);
}

/// Lines over two axes.
pub fn lines(title: &str, x: &Axis, y: &Axis, lines: &[Line]) -> String {
    let labels: Vec<&str> = lines.iter().map(|line| line.label.as_str()).collect();
    let top = TITLE_HEIGHT + legend_height(&labels) + 14.0;
    let field = Field { left: 84.0, right: WIDTH - RIGHT, top, bottom: top + 330.0 };
    let mut svg = Svg::new(WIDTH, field.bottom + AXIS_HEIGHT);
    draw_legend(&mut svg, title, &labels, field.left);
    draw_x_axis(&mut svg, &field, x);
    draw_y_axis(&mut svg, &field, y);
    // The first one last, so that it lies on the others.
    let colored: Vec<(&Line, &&str)> = lines.iter().zip(COLORS.iter().cycle()).collect();
    for (line, color) in colored.into_iter().rev() {
        let points: Vec<(f64, f64)> =
            line.points.iter().map(|&(a, b)| (field.x(x, a), field.y(y, b))).collect();
        svg.path(&points, color, 1.6, line.is_guide);
        if !line.is_guide {
            points.iter().for_each(|&point| svg.dot(point, color));
        }
    }
    svg.finish()
}

/// A row of dots, one for each series that has a value.
pub struct Row {
    pub label: String,
    pub values: Vec<Option<f64>>,
}

/// Rows of dots over one axis, with upright lines at some values.
pub fn rows(title: &str, x: &Axis, series: &[&str], rows: &[Row], marks: &[f64]) -> String {
    const ROW_HEIGHT: f64 = 22.0;
    let top = TITLE_HEIGHT + legend_height(series) + 14.0;
    let bottom = top + ROW_HEIGHT * rows.len() as f64;
    let field = Field { left: 320.0, right: WIDTH - RIGHT, top, bottom };
    let mut svg = Svg::new(WIDTH, field.bottom + AXIS_HEIGHT);
    draw_legend(&mut svg, title, series, 40.0);
    draw_x_axis(&mut svg, &field, x);
    for &mark in marks {
        let at = field.x(x, mark);
        svg.line((at, field.top), (at, field.bottom), BLACK, true);
    }
    for (number, row) in rows.iter().enumerate() {
        let y = top + ROW_HEIGHT * (number as f64 + 0.5);
        svg.text(field.left - 8.0, y + 4.0, 12.0, Anchor::End, &row.label);
        svg.line((field.left, y), (field.right, y), GRAY, false);
        let colored: Vec<(&Option<f64>, &&str)> = row.values.iter().zip(COLORS.iter().cycle()).collect();
        for (value, color) in colored.into_iter().rev() {
            if let Some(value) = value {
                svg.dot((field.x(x, *value), y), color);
            }
        }
    }
    svg.finish()
}

#[cfg(test)]
mod tests {
    use super::*;

    #[test]
    fn an_axis_has_room_for_its_values() {
        let axis = Axis::log("", 10, [0.02, 700.0].into_iter());
        assert_eq!([axis.share(0.01), axis.share(1000.0)], [0.0, 1.0]);
        let labels: Vec<String> = axis.ticks().into_iter().map(|(_, label)| label).collect();
        assert_eq!(labels, ["0.01", "0.1", "1", "10", "100", "1000"]);
    }

    #[test]
    fn a_linear_axis_ends_at_a_round_number() {
        let axis = Axis::linear("", 2.3);
        assert_eq!([axis.to, axis.step], [2.5, 0.25]);
        assert_eq!(axis.ticks().len(), 11);
    }

    /// What is said in a picture cannot break it.
    #[test]
    fn texts_are_escaped() {
        let row = Row { label: "a < b & c".to_string(), values: vec![Some(1.0), None] };
        let picture = rows("title", &Axis::linear("x", 1.0), &["one", "two"], &[row], &[0.5]);
        assert!(picture.contains("a &lt; b &amp; c"));
        assert!(picture.ends_with("</svg>\n"));
    }
}
