//! Plots how each call's cost grows with the width: reads the numbers that `bench growth` prints, writes an SVG.
//!
//!     bench growth > docs/growth.csv && plot < docs/growth.csv > docs/growth.svg
//!
//! Both axes are logarithmic, so that a cost that grows as a power of the width is a straight line.

use std::collections::BTreeMap;
use std::io::Read;

const WIDTH: f64 = 640.0;
const HEIGHT: f64 = 520.0;
const LEFT: f64 = 70.0;
const TOP: f64 = 20.0;
const COLOURS: [&str; 8] = ["#1b6ca8", "#c0392b", "#27813a", "#8e44ad", "#b9770e", "#117a8b", "#7f3b08", "#555555"];

/// A place between two bounds, both on a logarithmic scale, as a part of 1.
fn part(x: f64, low: f64, high: f64) -> f64 {
    (x / low).ln() / (high / low).ln()
}

fn main() {
    let mut text = String::new();
    std::io::stdin().read_to_string(&mut text).unwrap();
    let mut calls: BTreeMap<&str, Vec<(f64, f64)>> = BTreeMap::new();
    for line in text.lines().skip(1) {
        let fields: Vec<_> = line.split(',').collect();
        calls.entry(fields[1]).or_default().push((fields[0].parse().unwrap(), fields[2].parse().unwrap()));
    }
    let (low, high) = (60.0, 600.0);
    let (least, most) = (1e0, 1e9);
    let x = |m: f64| LEFT + part(m, low, high) * WIDTH;
    let y = |ns: f64| TOP + (1.0 - part(ns, least, most)) * HEIGHT;
    println!("<svg xmlns=\"http://www.w3.org/2000/svg\" width=\"920\" height=\"590\" font-family=\"sans-serif\" font-size=\"12\">");
    println!("<rect width=\"920\" height=\"590\" fill=\"white\"/>");
    for (ns, name) in [(1e0, "1 ns"), (1e3, "1 µs"), (1e6, "1 ms"), (1e9, "1 s")] {
        println!("<path d=\"M{LEFT} {0:.1}H{1}\" stroke=\"#ccc\"/><text x=\"{2}\" y=\"{3:.1}\" text-anchor=\"end\">{name}</text>", y(ns), LEFT + WIDTH, LEFT - 6.0, y(ns) + 4.0);
    }
    for m in [64.0, 96.0, 128.0, 163.0, 192.0, 233.0, 283.0, 340.0, 409.0, 480.0, 571.0] {
        println!("<path d=\"M{0:.1} {TOP}V{1}\" stroke=\"#eee\"/><text x=\"{0:.1}\" y=\"{2}\" text-anchor=\"middle\">{m}</text>", x(m), TOP + HEIGHT, TOP + HEIGHT + 18.0);
    }
    println!("<text x=\"{}\" y=\"{}\" text-anchor=\"middle\">width</text>", LEFT + WIDTH / 2.0, TOP + HEIGHT + 38.0);
    for (n, (name, points)) in calls.iter().enumerate() {
        let colour = COLOURS[n % COLOURS.len()];
        let dash = if n < COLOURS.len() { "none" } else { "5 3" };
        let path: Vec<String> = points.iter().map(|&(m, ns)| format!("{:.1} {:.1}", x(m), y(ns))).collect();
        println!("<path d=\"M{}\" fill=\"none\" stroke=\"{colour}\" stroke-width=\"1.5\" stroke-dasharray=\"{dash}\"/>", path.join("L"));
        let at = TOP + 14.0 + 18.0 * n as f64;
        println!("<path d=\"M730 {at}h26\" stroke=\"{colour}\" stroke-width=\"1.5\" stroke-dasharray=\"{dash}\"/><text x=\"762\" y=\"{}\">{name}</text>", at + 4.0);
    }
    println!("</svg>");
}
