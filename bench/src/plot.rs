//! A plot of times over sizes, both on logarithmic scales, as SVG text.

use std::fmt::Write;

pub struct Series<'a> {
    pub name: String,
    pub colour: &'a str,
    /// Size and seconds.
    pub points: &'a [(f64, f64)],
    pub fit: Fit,
}

/// seconds = factor × size^power.
#[derive(Clone, Copy)]
pub struct Fit {
    pub factor: f64,
    pub power: f64,
}

impl Fit {
    /// Least squares over the logarithms.
    pub fn of(points: &[(f64, f64)]) -> Self {
        let n = points.len() as f64;
        let logs = || points.iter().map(|&(x, y)| (x.ln(), y.ln()));
        let (mean_x, mean_y) = logs().fold((0.0, 0.0), |sum, (x, y)| (sum.0 + x / n, sum.1 + y / n));
        let over: f64 = logs().map(|(x, y)| (x - mean_x) * (y - mean_y)).sum();
        let under: f64 = logs().map(|(x, _)| (x - mean_x).powi(2)).sum();
        let power = over / under;
        Fit { factor: (mean_y - power * mean_x).exp(), power }
    }

    pub fn at(self, size: f64) -> f64 {
        self.factor * size.powf(self.power)
    }
}

const WIDTH: f64 = 640.0;
const HEIGHT: f64 = 420.0;
const LEFT: f64 = 70.0;
const RIGHT: f64 = 20.0;
const TOP: f64 = 40.0;
const BOTTOM: f64 = 50.0;

/// From the least to the greatest value, on a logarithmic scale, to a place on the page.
struct Axis {
    least: f64,
    greatest: f64,
    from: f64,
    to: f64,
}

impl Axis {
    /// Whole decades about the values.
    fn new(values: impl Iterator<Item = f64>, from: f64, to: f64) -> Self {
        let (least, greatest) = values.fold((f64::MAX, f64::MIN), |(a, b), x| (a.min(x), b.max(x)));
        Axis { least: least.log10().floor(), greatest: greatest.log10().ceil(), from, to }
    }

    fn place(&self, value: f64) -> f64 {
        self.from + (value.log10() - self.least) / (self.greatest - self.least) * (self.to - self.from)
    }

    fn decades(&self) -> impl Iterator<Item = i32> {
        self.least as i32..=self.greatest as i32
    }
}

/// A duration in the unit that suits it.
fn duration(seconds: f64) -> String {
    match seconds {
        s if s < 1e-6 => format!("{:.0} ns", s * 1e9),
        s if s < 1e-3 => format!("{:.0} µs", s * 1e6),
        s if s < 1.0 => format!("{:.0} ms", s * 1e3),
        s => format!("{s:.0} s"),
    }
}

pub fn svg(title: &str, sizes: &str, series: &[Series]) -> String {
    let all = || series.iter().flat_map(|one| one.points.iter().copied());
    let x = Axis::new(all().map(|point| point.0), LEFT, WIDTH - RIGHT);
    let y = Axis::new(all().map(|point| point.1), HEIGHT - BOTTOM, TOP);
    let mut page = format!("<svg xmlns=\"http://www.w3.org/2000/svg\" viewBox=\"0 0 {WIDTH} {HEIGHT}\" font-family=\"sans-serif\" font-size=\"12\">\n");
    page += "<rect width=\"100%\" height=\"100%\" fill=\"white\"/>\n";
    let _ = writeln!(page, "<text x=\"{LEFT}\" y=\"22\" font-size=\"14\">{title}</text>");
    for decade in x.decades() {
        let (value, at) = (10f64.powi(decade), x.place(10f64.powi(decade)));
        let _ = writeln!(page, "<line x1=\"{at:.1}\" x2=\"{at:.1}\" y1=\"{}\" y2=\"{}\" stroke=\"#ddd\"/>", y.from, y.to);
        let _ = writeln!(page, "<text x=\"{at:.1}\" y=\"{}\" text-anchor=\"middle\">{value:.0}</text>", y.from + 16.0);
    }
    for decade in y.decades() {
        let (value, at) = (10f64.powi(decade), y.place(10f64.powi(decade)));
        let _ = writeln!(page, "<line x1=\"{}\" x2=\"{}\" y1=\"{at:.1}\" y2=\"{at:.1}\" stroke=\"#ddd\"/>", x.from, x.to);
        let _ = writeln!(page, "<text x=\"{}\" y=\"{:.1}\" text-anchor=\"end\">{}</text>", x.from - 6.0, at + 4.0, duration(value));
    }
    let _ = writeln!(page, "<text x=\"{}\" y=\"{}\" text-anchor=\"middle\">{sizes}</text>", (x.from + x.to) / 2.0, HEIGHT - 12.0);
    for (row, one) in series.iter().enumerate() {
        draw(&mut page, one, row, &x, &y);
    }
    page + "</svg>\n"
}

/// Its points, its fit as a line, and its row of the legend.
fn draw(page: &mut String, series: &Series, row: usize, x: &Axis, y: &Axis) {
    let colour = series.colour;
    for &(size, seconds) in series.points {
        let _ = writeln!(page, "<circle cx=\"{:.1}\" cy=\"{:.1}\" r=\"3.5\" fill=\"{colour}\"/>", x.place(size), y.place(seconds));
    }
    let ends = [series.points[0].0, series.points[series.points.len() - 1].0];
    let [(x1, y1), (x2, y2)] = ends.map(|size| (x.place(size), y.place(series.fit.at(size))));
    let _ = writeln!(page, "<line x1=\"{x1:.1}\" y1=\"{y1:.1}\" x2=\"{x2:.1}\" y2=\"{y2:.1}\" stroke=\"{colour}\"/>");
    let at = y.to + 18.0 + 18.0 * row as f64;
    let _ = writeln!(page, "<circle cx=\"{}\" cy=\"{}\" r=\"3.5\" fill=\"{colour}\"/>", x.from + 14.0, at - 4.0);
    let _ = writeln!(page, "<text x=\"{}\" y=\"{at}\">{}: items to the power {:.2}</text>", x.from + 24.0, series.name, series.fit.power);
}
