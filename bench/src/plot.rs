//! The growth of time as an SVG picture: a panel for each table.

use std::fmt::Write;

pub struct Panel {
    pub title: String,
    pub x_name: String,
    /// Whether the x axis has equal steps for equal factors.
    pub log_x: bool,
    /// x, seconds of ours, seconds of the baseline.
    pub points: Vec<(f64, f64, f64)>,
}

const WIDTH: f64 = 470.0;
const HEIGHT: f64 = 320.0;
const LEFT: f64 = 70.0;
const RIGHT: f64 = 20.0;
const TOP: f64 = 40.0;
const BOTTOM: f64 = 50.0;
const OURS: &str = "#1f5fa8";
const BASE: &str = "#d9731a";

pub fn svg(panels: &[Panel]) -> String {
    let rows = panels.len().div_ceil(2);
    let (width, height) = (2.0 * WIDTH, rows as f64 * HEIGHT + 30.0);
    let mut out = format!(
        "<svg xmlns=\"http://www.w3.org/2000/svg\" viewBox=\"0 0 {width} {height}\" \
         width=\"{width}\" height=\"{height}\" font-family=\"sans-serif\" font-size=\"12\">\n\
         <rect width=\"{width}\" height=\"{height}\" fill=\"white\"/>\n"
    );
    for (colour, name, x) in [(OURS, "proved library", 70.0), (BASE, "plain Rust", 220.0)] {
        let _ = writeln!(
            out,
            "<line x1=\"{x}\" y1=\"16\" x2=\"{}\" y2=\"16\" stroke=\"{colour}\" \
             stroke-width=\"2\"/><text x=\"{}\" y=\"20\">{name}</text>",
            x + 25.0,
            x + 32.0
        );
    }
    for (k, panel) in panels.iter().enumerate() {
        let (x, y) = ((k % 2) as f64 * WIDTH, (k / 2) as f64 * HEIGHT + 30.0);
        let _ = writeln!(out, "<g transform=\"translate({x} {y})\">");
        draw(&mut out, panel);
        out += "</g>\n";
    }
    out + "</svg>\n"
}

fn draw(out: &mut String, panel: &Panel) {
    let place = |x: f64| if panel.log_x { x.log2() } else { x };
    let xs: Vec<f64> = panel.points.iter().map(|p| place(p.0)).collect();
    let times = panel.points.iter().flat_map(|p| [p.1, p.2]);
    let (low, high) = times.fold((f64::MAX, f64::MIN), |(l, h), t| (l.min(t), h.max(t)));
    let (low, high) = (low.log10().floor(), high.log10().ceil());
    let (first, last) = (xs[0], xs[xs.len() - 1]);
    let at_x = |x: f64| LEFT + (x - first) / (last - first).max(1e-9) * (WIDTH - LEFT - RIGHT);
    let at_y = |t: f64| {
        let part = (t.log10() - low) / (high - low).max(1.0);
        HEIGHT - BOTTOM - part * (HEIGHT - TOP - BOTTOM)
    };
    let _ = writeln!(
        out,
        "<text x=\"{LEFT}\" y=\"{}\" font-weight=\"bold\">{}</text>",
        TOP - 14.0,
        panel.title
    );
    for power in low as i32..=high as i32 {
        let y = at_y(10_f64.powi(power));
        let _ = writeln!(
            out,
            "<line x1=\"{LEFT}\" y1=\"{y:.1}\" x2=\"{:.1}\" y2=\"{y:.1}\" stroke=\"#ddd\"/>\
             <text x=\"{:.1}\" y=\"{:.1}\" text-anchor=\"end\">{}</text>",
            WIDTH - RIGHT,
            LEFT - 6.0,
            y + 4.0,
            power_name(power)
        );
    }
    for (point, &x) in panel.points.iter().zip(&xs) {
        let x = at_x(x);
        let _ = writeln!(
            out,
            "<text x=\"{x:.1}\" y=\"{:.1}\" text-anchor=\"middle\">{}</text>",
            HEIGHT - BOTTOM + 18.0,
            point.0
        );
    }
    let _ = writeln!(
        out,
        "<text x=\"{:.1}\" y=\"{:.1}\" text-anchor=\"middle\">{}</text>",
        (LEFT + WIDTH - RIGHT) / 2.0,
        HEIGHT - BOTTOM + 38.0,
        panel.x_name
    );
    for ours in [false, true] {
        let colour = if ours { OURS } else { BASE };
        let marks: Vec<(f64, f64)> = panel
            .points
            .iter()
            .zip(&xs)
            .map(|(p, &x)| (at_x(x), at_y(if ours { p.1 } else { p.2 })))
            .collect();
        let line: Vec<String> = marks
            .iter()
            .map(|(x, y)| format!("{x:.1},{y:.1}"))
            .collect();
        let _ = writeln!(
            out,
            "<polyline points=\"{}\" fill=\"none\" stroke=\"{colour}\" stroke-width=\"2\"/>",
            line.join(" ")
        );
        for (x, y) in marks {
            let _ = writeln!(
                out,
                "<circle cx=\"{x:.1}\" cy=\"{y:.1}\" r=\"3\" fill=\"{colour}\"/>"
            );
        }
    }
}

fn power_name(power: i32) -> String {
    match power {
        0.. => format!("{} s", 10_u64.pow(power as u32)),
        -3..=-1 => format!("{} ms", 10_u64.pow((power + 3) as u32)),
        -6..=-4 => format!("{} µs", 10_u64.pow((power + 6) as u32)),
        _ => format!("{} ns", 10_u64.pow((power + 9).max(0) as u32)),
    }
}
