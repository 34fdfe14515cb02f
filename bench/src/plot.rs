//! A plot of curves over bytes, with times on a logarithmic or a linear scale,
//! as SVG.

use std::fmt::Write;

pub struct Curve {
    pub label: String,
    pub colour: &'static str,
    pub dashed: bool,
    /// Bytes and nanoseconds.
    pub points: Vec<(f64, f64)>,
}

/// How times are laid out.
#[derive(Clone, Copy)]
pub enum Times {
    Logarithmic,
    /// From 0 on: what grows by a fixed time for each byte is a straight line.
    Linear,
}

pub struct Plot {
    pub title: String,
    pub x_title: String,
    pub axis: Times,
    pub curves: Vec<Curve>,
}

const WIDTH: f64 = 860.0;
const HEIGHT: f64 = 500.0;
/// The frame of the curves; the legend stands to its right.
const LEFT: f64 = 80.0;
const RIGHT: f64 = 610.0;
const TOP: f64 = 50.0;
const BOTTOM: f64 = 440.0;
const MOST_BYTES: f64 = 16_384.0;

impl Plot {
    pub fn svg(&self) -> String {
        let scale = Scale::of(&self.curves, self.axis);
        let mut svg = format!(
            "<svg xmlns=\"http://www.w3.org/2000/svg\" viewBox=\"0 0 {WIDTH} {HEIGHT}\" \
             font-family=\"sans-serif\" font-size=\"13\">\n\
             <rect width=\"{WIDTH}\" height=\"{HEIGHT}\" fill=\"white\"/>\n"
        );
        let middle = (LEFT + RIGHT) / 2.0;
        text(&mut svg, middle, 28.0, "middle", &self.title);
        text(&mut svg, middle, HEIGHT - 15.0, "middle", &self.x_title);
        scale.draw(&mut svg);
        for (i, curve) in self.curves.iter().enumerate() {
            curve.draw(&mut svg, &scale);
            curve.explain(&mut svg, TOP + 20.0 + 24.0 * i as f64);
        }
        svg.push_str("</svg>\n");
        svg
    }
}

/// Marks at heights of the frame, the highest at its top.
struct Scale {
    axis: Times,
    /// Decades of nanoseconds, or nanoseconds.
    lowest: f64,
    highest: f64,
    /// From one mark to the next.
    step: f64,
}

impl Scale {
    fn of(curves: &[Curve], axis: Times) -> Scale {
        let times = || curves.iter().flat_map(|c| c.points.iter().map(|p| p.1));
        let least = times().fold(f64::INFINITY, f64::min);
        let most = times().fold(1.0, f64::max);
        match axis {
            Times::Logarithmic => Scale {
                axis,
                lowest: least.log10().floor(),
                highest: most.log10().ceil(),
                step: 1.0,
            },
            Times::Linear => {
                // Ten marks at most, at 1, 2 or 5 of some power of ten.
                let power = 10f64.powf((most / 10.0).log10().floor());
                let steps = [1.0, 2.0, 5.0, 10.0].map(|k| k * power);
                let step = steps.into_iter().find(|step| most <= 10.0 * step);
                let step = step.expect("ten times the power is enough");
                Scale {
                    axis,
                    lowest: 0.0,
                    highest: (most / step).ceil() * step,
                    step,
                }
            }
        }
    }

    fn x(&self, bytes: f64) -> f64 {
        LEFT + (RIGHT - LEFT) * bytes / MOST_BYTES
    }

    fn y(&self, nanos: f64) -> f64 {
        match self.axis {
            Times::Logarithmic => self.height(nanos.log10()),
            Times::Linear => self.height(nanos),
        }
    }

    fn height(&self, mark: f64) -> f64 {
        BOTTOM - (BOTTOM - TOP) * (mark - self.lowest) / (self.highest - self.lowest)
    }

    fn draw(&self, svg: &mut String) {
        let marks = ((self.highest - self.lowest) / self.step).round() as usize;
        for i in 0..=marks {
            let mark = self.lowest + self.step * i as f64;
            let label = match self.axis {
                Times::Logarithmic => time_label(mark as i32),
                Times::Linear => format!("{} µs", mark / 1_000.0),
            };
            let y = self.height(mark);
            line(svg, (LEFT, y), (RIGHT, y));
            text(svg, LEFT - 8.0, y + 4.0, "end", &label);
        }
        for bytes in (0..=16_384).step_by(4_096) {
            let x = self.x(bytes as f64);
            line(svg, (x, TOP), (x, BOTTOM));
            let label = crate::table::nanos(bytes as f64);
            text(svg, x, BOTTOM + 20.0, "middle", &label);
        }
    }
}

fn time_label(decade: i32) -> String {
    match decade {
        ..=2 => format!("{} ns", 10i64.pow(decade as u32)),
        3..=5 => format!("{} µs", 10i64.pow(decade as u32 - 3)),
        _ => format!("{} ms", 10i64.pow(decade as u32 - 6)),
    }
}

fn line(svg: &mut String, from: (f64, f64), to: (f64, f64)) {
    let ((x1, y1), (x2, y2)) = (from, to);
    let _ = writeln!(
        svg,
        "<line x1=\"{x1:.1}\" y1=\"{y1:.1}\" x2=\"{x2:.1}\" y2=\"{y2:.1}\" stroke=\"#dddddd\"/>"
    );
}

fn text(svg: &mut String, x: f64, y: f64, anchor: &str, words: &str) {
    let _ = writeln!(
        svg,
        "<text x=\"{x:.1}\" y=\"{y:.1}\" text-anchor=\"{anchor}\">{words}</text>"
    );
}

impl Curve {
    fn stroke(&self) -> String {
        let dashes = if self.dashed {
            " stroke-dasharray=\"7 5\""
        } else {
            ""
        };
        format!(
            "fill=\"none\" stroke=\"{}\" stroke-width=\"2\"{dashes}",
            self.colour
        )
    }

    fn draw(&self, svg: &mut String, scale: &Scale) {
        let place = |&(x, y): &(f64, f64)| format!("{:.1},{:.1}", scale.x(x), scale.y(y));
        let places: Vec<String> = self.points.iter().map(place).collect();
        let _ = writeln!(
            svg,
            "<polyline points=\"{}\" {}/>",
            places.join(" "),
            self.stroke()
        );
    }

    /// Its line of the legend.
    fn explain(&self, svg: &mut String, y: f64) {
        let (from, to) = (RIGHT + 20.0, RIGHT + 55.0);
        let _ = writeln!(
            svg,
            "<polyline points=\"{from},{y} {to},{y}\" {}/>",
            self.stroke()
        );
        text(svg, to + 8.0, y + 4.0, "start", &self.label);
    }
}
