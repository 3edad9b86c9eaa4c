//! Times the Rust and the port on the same inputs, in one run of one driver, and checks that their results are equal in it.

mod asked;
mod asked_blocks;
mod blocks;
mod columns;
mod compare;
mod evidence;
mod functions;
mod locks;
mod marks;
mod measure;
mod rounds;
mod rows;
mod rules;
mod rust_crate;
mod sections;
mod texts;
mod wide;

use measure::{Measured, measure};
use rows::{Row, Side};

const USAGE: &str = "usage: bench                           times of every row
       bench ROW                       times of the rows whose names start so
       bench --list                    the rows' names
       bench --once ROW SIDE COUNT     one side (rust or port) of a row, so many times, to count instructions
       bench --evidence                the lines of `evidence` for a section on standard input, from the Rust";

fn main() {
    let args: Vec<String> = std::env::args().skip(1).collect();
    let args: Vec<&str> = args.iter().map(String::as_str).collect();
    match args[..] {
        [] => table(""),
        ["--list"] => rows::all()
            .iter()
            .for_each(|plan| println!("{}", plan.name)),
        ["--once", row, side, count] => once(row, side, count),
        ["--evidence"] => evidence::by_the_rust(),
        [row] if !row.starts_with('-') => table(row),
        _ => {
            eprintln!("{USAGE}");
            std::process::exit(2);
        }
    }
}

fn table(prefix: &str) {
    println!("| input | bytes | Rust ns | port ns | port / Rust | Rust MB/s | port MB/s |");
    println!("|---|---|---|---|---|---|---|");
    let mut ratios: Vec<(f64, String)> = Vec::new();
    for plan in rows::all() {
        if plan.name.starts_with(prefix) {
            let row = (plan.make)();
            let m = measure(&row);
            print_row(&row, &m);
            if !row.name.starts_with("against") {
                ratios.push((m.ratio(), row.name));
            }
        }
    }
    ratios.sort_by(|a, b| b.0.total_cmp(&a.0));
    println!();
    for (place, (ratio, name)) in ratios.iter().enumerate() {
        if place == 0 {
            println!("worst: {name}, {ratio:.2}");
        } else if *ratio > 1.0 {
            println!("slower than the Rust: {name}, {ratio:.2}");
        }
    }
}

fn print_row(row: &Row, m: &Measured) {
    let speed = |nanoseconds: f64| row.bytes as f64 * 1000.0 / nanoseconds;
    println!(
        "| {} | {} | {:.0} | {:.0} | {:.2} | {:.0} | {:.0} |",
        row.name,
        row.bytes,
        m.rust,
        m.port,
        m.ratio(),
        speed(m.rust),
        speed(m.port),
    );
}

fn once(name: &str, side: &str, count: &str) {
    let side = match side {
        "rust" => Side::Rust,
        "port" => Side::Port,
        _ => panic!("a side is rust or port"),
    };
    let count: u64 = count.parse().expect("a number");
    let plan = rows::all().into_iter().find(|plan| plan.name == name);
    let row = (plan.expect("a row's name").make)();
    std::hint::black_box(row.sum(side, count));
}
