//! A plot of growth as SVG: time over size, both axes by powers of ten, a line a family.

use super::grouped;
use super::growth::Curve;
use std::fmt::Write;

const LEFT: f64 = 60.0;
const TOP: f64 = 20.0;
const WIDTH: f64 = 560.0;
const HEIGHT: f64 = 480.0;

/// Where a value stands on an axis from 10^low to 10^high, from 0 to 1.
fn along(x: f64, low: i32, high: i32) -> f64 {
    (x.log10() - f64::from(low)) / f64::from(high - low)
}

/// The powers of ten round all values.
fn powers(values: impl Iterator<Item = f64>) -> (i32, i32) {
    let (low, high) = values.fold((f64::MAX, 0.0f64), |(low, high), x| (low.min(x), high.max(x)));
    (low.log10().floor() as i32, high.log10().ceil() as i32)
}

pub fn svg(curves: &[Curve]) -> String {
    let points = || curves.iter().flat_map(|curve| &curve.points);
    let (x0, x1) = powers(points().map(|&(n, _)| n as f64));
    let (y0, y1) = powers(points().map(|&(_, us)| us));
    let place = |n: f64, us: f64| (LEFT + WIDTH * along(n, x0, x1), TOP + HEIGHT * (1.0 - along(us, y0, y1)));
    let mut out = format!(
        "<svg xmlns=\"http://www.w3.org/2000/svg\" viewBox=\"0 0 1160 {}\" font-family=\"sans-serif\" font-size=\"11\">\n\
         <title>Microseconds for reading, expanding and writing, by what grows</title>\n<rect width=\"100%\" height=\"100%\" fill=\"white\"/>\n",
        TOP + HEIGHT + 50.0
    );
    for power in x0..=x1 {
        let (x, y) = place(10f64.powi(power), 10f64.powi(y0));
        writeln!(
            out,
            "<path d=\"M{x:.1} {y:.1}V{TOP}\" stroke=\"#ddd\"/><text x=\"{x:.1}\" y=\"{:.1}\" text-anchor=\"middle\">{}</text>",
            y + 16.0,
            grouped(10usize.pow(power as u32))
        )
        .unwrap();
    }
    for power in y0..=y1 {
        let (x, y) = place(10f64.powi(x0), 10f64.powi(power));
        writeln!(
            out,
            "<path d=\"M{x:.1} {y:.1}H{}\" stroke=\"#ddd\"/><text x=\"{:.1}\" y=\"{:.1}\" text-anchor=\"end\">{} µs</text>",
            LEFT + WIDTH,
            x - 4.0,
            y + 4.0,
            grouped(10usize.pow(power as u32))
        )
        .unwrap();
    }
    writeln!(out, "<text x=\"{}\" y=\"{}\" text-anchor=\"middle\">size</text>", LEFT + WIDTH / 2.0, TOP + HEIGHT + 36.0).unwrap();
    let mut sorted: Vec<&Curve> = curves.iter().collect();
    sorted.sort_by(|a, b| b.points.last().unwrap().1.total_cmp(&a.points.last().unwrap().1));
    for (i, curve) in sorted.iter().enumerate() {
        let colour = format!("hsl({} 70% {}%)", i * 360 / sorted.len(), [35, 50][i % 2]);
        let line: String = curve.points.iter().map(|&(n, us)| place(n as f64, us)).map(|(x, y)| format!("{x:.1},{y:.1} ")).collect();
        let y = TOP + 8.0 + 19.5 * i as f64;
        writeln!(out, "<polyline points=\"{}\" fill=\"none\" stroke=\"{colour}\" stroke-width=\"1.5\"/>", line.trim_end()).unwrap();
        writeln!(
            out,
            "<path d=\"M640 {y:.1}h24\" stroke=\"{colour}\" stroke-width=\"3\"/><text x=\"670\" y=\"{:.1}\">{}</text>",
            y + 4.0,
            curve.title
        )
        .unwrap();
    }
    out + "</svg>\n"
}
