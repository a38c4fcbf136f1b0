//! Draws how a command's time grows with the list. Reads the table of `speed` in the file named, and writes a picture of it.
use std::process::exit;

const KINDS: [&str; 5] = ["insert", "remove", "push", "get", "replace"];
/// The column of each line, its name and how it is drawn.
const LINES: [(usize, &str, &str); 2] = [
    (5, "library", "stroke=\"#1f5fa8\""),
    (6, "Rust program", "stroke=\"#c4581a\" stroke-dasharray=\"5 3\""),
];
const WIDTH: f64 = 170.0;
const HEIGHT: f64 = 200.0;
const LEFT: f64 = 50.0;
const TOP: f64 = 60.0;
const GAP: f64 = 16.0;

/// The rows of the table, cell by cell.
fn rows(text: &str) -> Vec<Vec<&str>> {
    let table = text.lines().skip_while(|line| !line.starts_with("| samples | nodes | command |")).skip(2);
    table.take_while(|line| line.starts_with('|')).map(|line| line.trim_matches('|').split('|').map(str::trim).collect()).collect()
}

fn number(cell: &str) -> f64 {
    cell.parse().unwrap_or_else(|_| panic!("no number: {cell}"))
}

/// Samples from 30 to 60,000, each tenfold as wide as the last, and nanoseconds from 0 to the highest.
fn place(panel: usize, samples: f64, time: f64, highest: f64) -> (f64, f64) {
    let across = (samples / 30.0).ln() / 2000f64.ln();
    (LEFT + panel as f64 * (WIDTH + GAP) + across * WIDTH, TOP + HEIGHT * (1.0 - time / highest))
}

fn text(x: f64, y: f64, anchor: &str, words: &str) -> String {
    format!("<text x=\"{x:.1}\" y=\"{y:.1}\" text-anchor=\"{anchor}\">{words}</text>\n")
}

fn line(x1: f64, y1: f64, x2: f64, y2: f64, how: &str) -> String {
    format!("<line x1=\"{x1:.1}\" y1=\"{y1:.1}\" x2=\"{x2:.1}\" y2=\"{y2:.1}\" {how}/>\n")
}

/// A command's panel: the scales, and the points of each line joined.
fn panel(i: usize, rows: &[Vec<&str>], highest: f64) -> String {
    let (left, bottom) = place(i, 30.0, 0.0, highest);
    let mut drawn = text(left + WIDTH / 2.0, TOP - 8.0, "middle", KINDS[i]);
    for time in (0..=highest as u64).step_by(50) {
        let y = place(i, 30.0, time as f64, highest).1;
        drawn += &line(left, y, left + WIDTH, y, "stroke=\"#ddd\"");
        if i == 0 {
            drawn += &text(left - 6.0, y + 4.0, "end", &time.to_string());
        }
    }
    for (samples, words) in [(30.0, "30"), (300.0, "300"), (3000.0, "3,000"), (30_000.0, "30,000")] {
        let x = place(i, samples, 0.0, highest).0;
        drawn += &line(x, bottom, x, bottom + 4.0, "stroke=\"#888\"");
        drawn += &text(x, bottom + 18.0, "middle", words);
    }
    for (column, _, how) in LINES {
        let of_kind = rows.iter().filter(|row| row[2] == KINDS[i]);
        let points: Vec<_> = of_kind.map(|row| place(i, number(row[0]), number(row[column]), highest)).collect();
        let joined: Vec<_> = points.iter().map(|(x, y)| format!("{x:.1},{y:.1}")).collect();
        drawn += &format!("<polyline points=\"{}\" fill=\"none\" stroke-width=\"2\" {how}/>\n", joined.join(" "));
    }
    drawn
}

fn main() {
    let Some(file) = std::env::args().nth(1) else {
        eprintln!("usage: picture BENCH.md");
        exit(2);
    };
    let words = std::fs::read_to_string(&file).unwrap_or_else(|e| panic!("{file}: {e}"));
    let rows = rows(&words);
    assert_eq!(rows.len(), 25, "five lists, five commands");
    let times = rows.iter().flat_map(|row| LINES.map(|(column, ..)| number(row[column])));
    let highest = (times.fold(0.0, f64::max) / 50.0).ceil() * 50.0;
    let (width, height) = (LEFT + 5.0 * (WIDTH + GAP), TOP + HEIGHT + 50.0);
    println!("<svg xmlns=\"http://www.w3.org/2000/svg\" width=\"{width}\" height=\"{height}\" font-family=\"sans-serif\" font-size=\"12\">");
    println!("<title>Nanoseconds of a command, by the samples in the list</title>");
    println!("<rect width=\"{width}\" height=\"{height}\" fill=\"white\"/>");
    print!("{}", text(LEFT, 20.0, "start", "nanoseconds of a command"));
    for (i, (_, name, how)) in LINES.iter().enumerate() {
        let x = LEFT + 200.0 + 130.0 * i as f64;
        print!("{}", line(x, 16.0, x + 30.0, 16.0, &format!("stroke-width=\"2\" {how}")));
        print!("{}", text(x + 36.0, 20.0, "start", name));
    }
    (0..KINDS.len()).for_each(|i| print!("{}", panel(i, &rows, highest)));
    print!("{}", text(LEFT + (5.0 * (WIDTH + GAP) - GAP) / 2.0, height - 10.0, "middle", "samples in the list"));
    println!("</svg>");
}
