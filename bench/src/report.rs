//! The printed table: for each way of a line the slowest, the median and the best round, and how many times as fast the library is;
//! and a line on the machine.

use crate::measure::{Line, Way};

fn sorted(values: impl Iterator<Item = f64>) -> Vec<f64> {
    let mut values: Vec<f64> = values.collect();
    values.sort_by(f64::total_cmp);
    values
}

struct Spread {
    least: f64,
    median: f64,
    most: f64,
}

/// Of one value at least.
fn spread(values: impl Iterator<Item = f64>) -> Spread {
    let values = sorted(values);
    let (half, last) = (values.len() / 2, values.len() - 1);
    Spread { least: values[0], median: (values[half] + values[last - half]) / 2.0, most: values[last] }
}

/// As 51.6, and 1 234 567 for large ones.
fn figure(value: f64) -> String {
    if value < 1000.0 {
        return format!("{value:.1}");
    }
    let digits = format!("{value:.0}");
    let groups: Vec<_> = digits.as_bytes().rchunks(3).rev().map(String::from_utf8_lossy).collect();
    groups.join(" ")
}

fn row(name: &str, columns: [String; 6]) {
    let [slowest, median, best, medians, bests, rounds] = columns;
    let text = format!("  {name:<16}{slowest:>12}{median:>12}{best:>12}{medians:>11}{bests:>8}{rounds:>16}");
    println!("{}", text.trim_end());
}

fn way_row(library: &Way, way: &Way, is_library: bool) {
    let of = spread(way.rates.iter().copied());
    let figures = [of.least, of.median, of.most].map(figure);
    let ratios = if is_library {
        [const { String::new() }; 3]
    } else {
        let lib = spread(library.rates.iter().copied());
        let rounds = spread(library.rates.iter().zip(&way.rates).map(|(library, this)| library / this));
        [
            format!("{:.2}", lib.median / of.median),
            format!("{:.2}", lib.most / of.most),
            format!("{:.2} to {:.2}", rounds.least, rounds.most),
        ]
    };
    let [slowest, median, best] = figures;
    let [medians, bests, rounds] = ratios;
    row(&way.name, [slowest, median, best, medians, bests, rounds]);
}

pub fn table(lines: &[Line]) {
    println!("{:54}{:>35}", "", "library / this");
    row("", ["slowest", "median", "best", "medians", "bests", "round by round"].map(String::from));
    for line in lines {
        println!("{}", line.what);
        for (i, way) in line.ways.iter().enumerate() {
            way_row(&line.ways[0], way, i == 0);
        }
    }
}

/// Cores, processor and load, as Linux tells them.
pub fn machine() -> String {
    let read = |file: &str| std::fs::read_to_string(file).unwrap_or_default();
    let info = read("/proc/cpuinfo");
    let model = info.lines().find_map(|line| line.strip_prefix("model name")?.split_once(": "));
    let cores = std::thread::available_parallelism().map_or(0, usize::from);
    let load = read("/proc/loadavg");
    let load = load.split(' ').next().unwrap_or_default();
    format!("{cores} cores, {}, load {load}", model.map_or("processor not told", |(_, name)| name))
}
