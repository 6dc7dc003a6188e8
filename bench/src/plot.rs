//! Plots as SVG: panels with two axes of logarithms.

pub struct Line {
    pub name: String,
    /// n, and the value there
    pub points: Vec<(f64, f64)>,
}

pub struct Panel {
    pub title: String,
    pub lines: Vec<Line>,
}

/// How values are written beside the axis.
#[derive(Clone, Copy, PartialEq)]
pub enum Scale {
    Time,
    Speed,
}

const COLUMNS: usize = 3;
const WIDTH: f64 = 320.0;
const LEFT: f64 = 58.0;
const RIGHT: f64 = 14.0;
const TOP: f64 = 26.0;
const FIELD: f64 = 170.0;
const BELOW: f64 = 38.0;
const LEGEND_ROW: f64 = 15.0;
const HEAD: f64 = 34.0;
const LEGEND_COLUMNS: usize = 2;

const SIZES: [(f64, &str); 6] = [
    (2.0, "2"),
    (16.0, "16"),
    (128.0, "128"),
    (1_024.0, "1,024"),
    (8_192.0, "8,192"),
    (65_536.0, "65,536"),
];

const COLOURS: [&str; 8] = [
    "#1f4e9c", "#d1600a", "#6b6b6b", "#2e8b3a", "#8e44ad", "#b03060", "#00808a", "#8a6d00",
];

fn legend_rows(panel: &Panel) -> usize {
    panel.lines.len().div_ceil(LEGEND_COLUMNS)
}

/// The whole picture.
pub fn svg(title: &str, scale: Scale, panels: &[Panel]) -> String {
    let legend = panels.iter().map(legend_rows).max().unwrap_or(0) as f64 * LEGEND_ROW;
    let height = TOP + FIELD + BELOW + legend + 12.0;
    let columns = panels.len().clamp(1, COLUMNS);
    let wide = columns as f64 * WIDTH;
    let high = HEAD + panels.len().div_ceil(COLUMNS) as f64 * height;
    let mut out = format!(
        "<svg xmlns=\"http://www.w3.org/2000/svg\" width=\"{wide}\" height=\"{high}\" viewBox=\"0 0 {wide} {high}\" \
         font-family=\"Helvetica, Arial, sans-serif\" font-size=\"11\">\n\
         <rect width=\"{wide}\" height=\"{high}\" fill=\"#ffffff\"/>\n"
    );
    out += &text(12.0, 22.0, "start", 15, title);
    for (i, panel) in panels.iter().enumerate() {
        let x = (i % COLUMNS) as f64 * WIDTH;
        let y = HEAD + (i / COLUMNS) as f64 * height;
        out += &format!(
            "<g transform=\"translate({x} {y})\">\n{}</g>\n",
            draw(panel, scale)
        );
    }
    out + "</svg>\n"
}

fn text(x: f64, y: f64, anchor: &str, size: u32, said: &str) -> String {
    let said = said.replace('&', "&amp;").replace('<', "&lt;");
    format!(
        "<text x=\"{x:.1}\" y=\"{y:.1}\" text-anchor=\"{anchor}\" font-size=\"{size}\" fill=\"#222222\">{said}</text>\n"
    )
}

fn stroke(x1: f64, y1: f64, x2: f64, y2: f64, colour: &str) -> String {
    format!(
        "<line x1=\"{x1:.1}\" y1=\"{y1:.1}\" x2=\"{x2:.1}\" y2=\"{y2:.1}\" stroke=\"{colour}\" stroke-width=\"1\"/>\n"
    )
}

/// Where n stands in a panel.
fn across(n: f64) -> f64 {
    let (first, last) = (SIZES[0].0, SIZES[SIZES.len() - 1].0);
    LEFT + (n / first).ln() / (last / first).ln() * (WIDTH - LEFT - RIGHT)
}

/// The values that the axis shows: from, to, and the ones that are written beside it.
fn axis(lines: &[Line]) -> (f64, f64, Vec<f64>) {
    let values = || {
        lines
            .iter()
            .flat_map(|line| line.points.iter().map(|point| point.1))
    };
    let least = values().fold(f64::INFINITY, f64::min);
    let most = values().fold(f64::MIN_POSITIVE, f64::max);
    let decades = |steps: &[f64]| -> Vec<f64> {
        let powers = (least.log10().floor() as i32 - 1)..=(most.log10().ceil() as i32 + 1);
        powers
            .flat_map(|power| steps.iter().map(move |step| step * 10f64.powi(power)))
            .collect()
    };
    // few decades: more marks, so that there are three or more
    let steps: &[f64] = if most / least < 100.0 {
        &[1.0, 2.0, 5.0]
    } else {
        &[1.0]
    };
    let marks = decades(steps);
    let from = marks
        .iter()
        .copied()
        .filter(|mark| *mark <= least * 0.97)
        .fold(marks[0], f64::max);
    let to = marks
        .iter()
        .copied()
        .filter(|mark| *mark >= most * 1.03)
        .fold(f64::INFINITY, f64::min);
    let shown = marks
        .into_iter()
        .filter(|mark| (from..=to).contains(mark))
        .collect();
    (from, to, shown)
}

fn mark(value: f64, scale: Scale) -> String {
    let plain = |value: f64| {
        let text = format!("{value:.3}");
        text.trim_end_matches('0').trim_end_matches('.').to_string()
    };
    match scale {
        Scale::Speed => format!("{} GB/s", plain(value)),
        Scale::Time if value < 999.0 => format!("{} ns", plain(value)),
        Scale::Time if value < 999e3 => format!("{} µs", plain(value / 1e3)),
        Scale::Time if value < 999e6 => format!("{} ms", plain(value / 1e6)),
        Scale::Time => format!("{} s", plain(value / 1e9)),
    }
}

fn draw(panel: &Panel, scale: Scale) -> String {
    let (from, to, marks) = axis(&panel.lines);
    let bottom = TOP + FIELD;
    let up = |value: f64| bottom - (value / from).ln() / (to / from).ln() * FIELD;
    let mut out = text(LEFT, TOP - 9.0, "start", 12, &panel.title);
    for (n, name) in SIZES {
        out += &stroke(across(n), TOP, across(n), bottom, "#e4e4e4");
        out += &text(across(n), bottom + 14.0, "middle", 10, name);
    }
    for value in marks {
        out += &stroke(LEFT, up(value), WIDTH - RIGHT, up(value), "#e4e4e4");
        out += &text(LEFT - 5.0, up(value) + 3.5, "end", 10, &mark(value, scale));
    }
    out += &stroke(LEFT, TOP, LEFT, bottom, "#444444");
    out += &stroke(LEFT, bottom, WIDTH - RIGHT, bottom, "#444444");
    out += &text(
        (LEFT + WIDTH - RIGHT) / 2.0,
        bottom + 28.0,
        "middle",
        10,
        "blocks n",
    );
    // ours is drawn last, over the others
    for (i, line) in panel.lines.iter().enumerate().rev() {
        out += &curve(line, i, &up);
    }
    for (i, line) in panel.lines.iter().enumerate() {
        let x = LEFT + (i % LEGEND_COLUMNS) as f64 * 128.0;
        let y = bottom + BELOW + (i / LEGEND_COLUMNS) as f64 * LEGEND_ROW;
        out += &format!("<path d=\"M{x:.1} {y:.1} h20\" {}/>\n", style(i));
        out += &text(x + 25.0, y + 4.0, "start", 11, &line.name);
    }
    out
}

/// How a panel's i-th line is drawn.
fn style(i: usize) -> String {
    let dashes = match i {
        0 | 1 => "",
        2 => " stroke-dasharray=\"5 3\"",
        _ => " stroke-dasharray=\"2 2\"",
    };
    format!(
        "fill=\"none\" stroke=\"{}\" stroke-width=\"{}\"{dashes}",
        COLOURS[i % COLOURS.len()],
        if i == 0 { 2.2 } else { 1.6 }
    )
}

fn curve(line: &Line, i: usize, up: &impl Fn(f64) -> f64) -> String {
    let places: Vec<(f64, f64)> = line
        .points
        .iter()
        .map(|&(n, value)| (across(n), up(value)))
        .collect();
    let path: Vec<String> = places
        .iter()
        .map(|(x, y)| format!("{x:.1},{y:.1}"))
        .collect();
    let mut out = format!("<polyline points=\"{}\" {}/>\n", path.join(" "), style(i));
    for (x, y) in places {
        let colour = COLOURS[i % COLOURS.len()];
        out += &format!("<circle cx=\"{x:.1}\" cy=\"{y:.1}\" r=\"2.4\" fill=\"{colour}\"/>\n");
    }
    out
}
