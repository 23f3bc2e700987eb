//! A small plot as SVG: two panels, logarithmic axes, no more than is needed.

use std::fmt::Write;

pub struct Curve {
    pub name: String,
    pub colour: &'static str,
    /// Both above 0.
    pub points: Vec<(f64, f64)>,
}

pub struct Panel {
    pub title: String,
    pub across: String,
    pub up: String,
    pub curves: Vec<Curve>,
}

const WIDTH: f64 = 460.0;
const HEIGHT: f64 = 340.0;
const LEFT: f64 = 62.0;
const RIGHT: f64 = 14.0;
const TOP: f64 = 34.0;
const BOTTOM: f64 = 46.0;

/// The powers of ten around the values of an axis.
struct Axis {
    low: f64,
    high: f64,
}

impl Axis {
    fn around(values: impl Iterator<Item = f64> + Clone) -> Axis {
        let low = values.clone().fold(f64::INFINITY, f64::min).log10().floor();
        let high = values.fold(0.0, f64::max).log10().ceil();
        Axis { low, high: high.max(low + 1.0) }
    }

    /// From 0 at the low end to 1 at the high end.
    fn share(&self, value: f64) -> f64 {
        (value.log10() - self.low) / (self.high - self.low)
    }

    fn powers(&self) -> impl Iterator<Item = i32> {
        self.low as i32..=self.high as i32
    }
}

pub fn svg(panels: &[Panel]) -> String {
    let width = WIDTH * panels.len() as f64;
    let mut out = format!(
        "<svg xmlns=\"http://www.w3.org/2000/svg\" viewBox=\"0 0 {width} {HEIGHT}\" width=\"{width}\" height=\"{HEIGHT}\" font-family=\"sans-serif\" font-size=\"11\">\n<rect width=\"100%\" height=\"100%\" fill=\"white\"/>\n"
    );
    for (index, panel) in panels.iter().enumerate() {
        writeln!(out, "<g transform=\"translate({} 0)\">", WIDTH * index as f64).unwrap();
        draw(&mut out, panel);
        out.push_str("</g>\n");
    }
    out.push_str("</svg>\n");
    out
}

fn draw(out: &mut String, panel: &Panel) {
    let points = || panel.curves.iter().flat_map(|curve| curve.points.iter().copied());
    let (across, up) = (Axis::around(points().map(|point| point.0)), Axis::around(points().map(|point| point.1)));
    let x = |value: f64| LEFT + across.share(value) * (WIDTH - LEFT - RIGHT);
    let y = |value: f64| HEIGHT - BOTTOM - up.share(value) * (HEIGHT - TOP - BOTTOM);
    let (x_end, y_end) = (WIDTH - RIGHT, HEIGHT - BOTTOM);
    writeln!(out, "<text x=\"{LEFT}\" y=\"18\" font-size=\"13\">{}</text>", panel.title).unwrap();
    for power in across.powers() {
        let at = x(10f64.powi(power));
        writeln!(out, "<path d=\"M{at:.1} {TOP}V{y_end}\" stroke=\"#ddd\"/>").unwrap();
        writeln!(out, "<text x=\"{at:.1}\" y=\"{}\" text-anchor=\"middle\">{}</text>", y_end + 15.0, power_label(power)).unwrap();
    }
    for power in up.powers() {
        let at = y(10f64.powi(power));
        writeln!(out, "<path d=\"M{LEFT} {at:.1}H{x_end}\" stroke=\"#ddd\"/>").unwrap();
        writeln!(out, "<text x=\"{}\" y=\"{:.1}\" text-anchor=\"end\">{}</text>", LEFT - 6.0, at + 4.0, power_label(power))
            .unwrap();
    }
    writeln!(out, "<text x=\"{x_end}\" y=\"{}\" text-anchor=\"end\">{}</text>", HEIGHT - 12.0, panel.across).unwrap();
    writeln!(out, "<text x=\"14\" y=\"{TOP}\" text-anchor=\"end\" transform=\"rotate(-90 14 {TOP})\">{}</text>", panel.up)
        .unwrap();
    for (index, curve) in panel.curves.iter().enumerate() {
        let path: Vec<String> = curve.points.iter().map(|point| format!("{:.1},{:.1}", x(point.0), y(point.1))).collect();
        let colour = curve.colour;
        writeln!(out, "<polyline points=\"{}\" fill=\"none\" stroke=\"{colour}\" stroke-width=\"1.6\"/>", path.join(" "))
            .unwrap();
        let label = TOP + 14.0 + 14.0 * index as f64;
        writeln!(out, "<text x=\"{}\" y=\"{label}\" fill=\"{colour}\">{}</text>", LEFT + 8.0, curve.name).unwrap();
    }
}

fn power_label(power: i32) -> String {
    match power {
        0..=3 => 10u32.pow(power as u32).to_string(),
        _ => format!("10<tspan dy=\"-4\" font-size=\"8\">{power}</tspan>"),
    }
}
