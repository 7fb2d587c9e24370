//! Plots as one SVG: panels side by side, each with its axes and its legend.
//! Text alone, without scripts; a mark's title says its value.

use crate::table::time;
use std::fmt::Write;

/// A line of a panel: a mark at each place across, in nanoseconds.
pub struct Series {
    pub name: &'static str,
    pub marks: Vec<(f64, f64)>,
}

/// A panel: what stands across and its ticks, from the first to the last, and
/// the lines over it.
pub struct Panel {
    pub title: &'static str,
    pub across: &'static str,
    pub ticks: Vec<(f64, String)>,
    pub series: Vec<Series>,
}

const PANEL: f64 = 332.0;
const LEFT: f64 = 56.0;
const TOP: f64 = 46.0;
const WIDTH: f64 = 254.0;
const HEIGHT: f64 = 200.0;
const LEGEND: f64 = TOP + HEIGHT + 64.0;
const LINE: f64 = 19.0;
/// Colours that differ in lightness too, and marks that differ in shape.
const COLOURS: [&str; 4] = ["#0b5394", "#d9730d", "#2e8b57", "#8e44ad"];

/// The whole picture.
pub fn text(panels: &[Panel]) -> String {
    let lines = panels.iter().map(|panel| panel.series.len()).max().unwrap_or(0);
    let (width, height) = (PANEL * panels.len() as f64, LEGEND + LINE * lines as f64);
    let mut text = format!(
        "<svg xmlns=\"http://www.w3.org/2000/svg\" viewBox=\"0 0 {width} {height}\" width=\"{width}\" height=\"{height}\" \
         font-family=\"Helvetica, Arial, sans-serif\" font-size=\"12\" fill=\"#222\">\n\
         <title>How the cost grows</title>\n\
         <rect width=\"{width}\" height=\"{height}\" fill=\"#fff\"/>\n"
    );
    for (number, panel) in panels.iter().enumerate() {
        writeln!(text, "<g transform=\"translate({} 0)\">", PANEL * number as f64).unwrap();
        panel.draw(&mut text);
        text += "</g>\n";
    }
    text + "</svg>\n"
}

/// Marks on the axis of times: from 0 on, 1, 2 or 5 times a power of ten
/// apart, not more than five over 0.
fn steps(greatest: f64) -> Vec<f64> {
    let power = 10f64.powf((greatest / 5.0).log10().floor());
    let step = [1.0, 2.0, 5.0, 10.0].map(|times| times * power).into_iter().find(|step| greatest <= 5.0 * step).unwrap();
    (0..=(greatest / step).ceil() as usize).map(|count| count as f64 * step).collect()
}

impl Panel {
    fn draw(&self, text: &mut String) {
        let greatest = self.series.iter().flat_map(|series| &series.marks).map(|mark| mark.1).fold(0.0, f64::max);
        let steps = steps(greatest / 1e3);
        let (first, last) = (self.ticks[0].0, self.ticks[self.ticks.len() - 1].0);
        let x = |value: f64| LEFT + WIDTH * (value - first) / (last - first);
        let y = |microseconds: f64| TOP + HEIGHT * (1.0 - microseconds / steps[steps.len() - 1]);
        let (right, bottom, middle) = (LEFT + WIDTH, TOP + HEIGHT, LEFT + WIDTH / 2.0);
        let mut put = |line: String| *text += &(line + "\n");
        put(format!("<text x=\"{middle}\" y=\"24\" text-anchor=\"middle\" font-size=\"14\" font-weight=\"bold\">{}</text>", self.title));
        for &step in &steps {
            let y = y(step);
            put(format!("<path d=\"M{LEFT} {y:.1}H{right}\" stroke=\"#ddd\"/>"));
            put(format!("<text x=\"{}\" y=\"{:.1}\" text-anchor=\"end\">{step}</text>", LEFT - 8.0, y + 4.0));
        }
        for (value, label) in &self.ticks {
            put(format!("<path d=\"M{:.1} {bottom}v5\" stroke=\"#444\"/>", x(*value)));
            put(format!("<text x=\"{:.1}\" y=\"{}\" text-anchor=\"middle\">{label}</text>", x(*value), bottom + 19.0));
        }
        put(format!("<path d=\"M{LEFT} {TOP}V{bottom}H{right}\" fill=\"none\" stroke=\"#444\"/>"));
        put(format!("<text x=\"{middle}\" y=\"{}\" text-anchor=\"middle\">{}</text>", bottom + 39.0, self.across));
        let aside = (18.0, TOP + HEIGHT / 2.0);
        put(format!("<text transform=\"translate({} {}) rotate(-90)\" text-anchor=\"middle\">time in µs</text>", aside.0, aside.1));
        for (number, series) in self.series.iter().enumerate() {
            let colour = COLOURS[number % COLOURS.len()];
            let path: Vec<String> = series.marks.iter().map(|mark| format!("{:.1},{:.1}", x(mark.0), y(mark.1 / 1e3))).collect();
            put(format!("<g stroke=\"{colour}\" stroke-width=\"1.6\" fill=\"{}\">", if number < 3 { colour } else { "none" }));
            put(format!("<polyline points=\"{}\" fill=\"none\"/>", path.join(" ")));
            for mark in &series.marks {
                let shape = shape(number, x(mark.0), y(mark.1 / 1e3));
                put(format!("<path d=\"{shape}\"><title>{}: {}</title></path>", series.name, time(mark.1)));
            }
            let line = LEGEND + LINE * number as f64;
            put(format!("<path d=\"M{LEFT} {line}h30\"/>"));
            put(format!("<path d=\"{}\"/>", shape(number, LEFT + 15.0, line)));
            put("</g>".to_string());
            put(format!("<text x=\"{}\" y=\"{}\">{}</text>", LEFT + 38.0, line + 4.0, series.name));
        }
    }
}

/// A mark: a disc, a square, a triangle or, open and larger, a diamond about
/// that place.
fn shape(number: usize, x: f64, y: f64) -> String {
    let at = |right: f64, down: f64| format!("M{:.1} {:.1}", x + right, y + down);
    match number % 4 {
        0 => at(-2.8, 0.0) + "a2.8 2.8 0 1 0 5.6 0a2.8 2.8 0 1 0 -5.6 0z",
        1 => at(-2.5, -2.5) + "h5v5h-5z",
        2 => at(0.0, -2.8) + "l2.8 4.9h-5.6z",
        _ => at(0.0, -7.0) + "l7 7l-7 7l-7 -7z",
    }
}
