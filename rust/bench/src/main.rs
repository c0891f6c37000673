//! How fast the library is, beside the same loop in plain Rust and beside a plain copy of as many
//! bytes; the SP alone also beside a DMA loop as emulators have it; and what all this took in an
//! earlier library, if build.rs was told of one.
#![warn(clippy::undocumented_unsafe_blocks)]

#[cfg(before)]
mod before;
mod buffers;
mod cases;
mod library;
mod pages;
mod plain;
mod timing;

use timing::{Aim, Column, Line};

fn main() {
    println!("Nanoseconds a word (for turns and registers a call, for bursts a write, for recordings a record): the fastest of interleaved rounds on this machine.");
    println!("Plain Rust is the same loop, turn by turn, without checks of its input. Copy is copy_from_slice of as many bytes, for registers and bursts of a state.");
    println!("The DMA loop moves the rows of a transfer word by word, and does the registers once for each row.");
    table(
        &[Column::Ours, Column::Plain, Column::Dma, Column::Copy],
        &[Column::Plain, Column::Dma, Column::Copy],
        cases::sp_alone,
    );
    table(
        &[Column::Ours, Column::Plain, Column::Copy],
        &[Column::Plain],
        cases::others,
    );
    println!("\nSingle calls are as many of write_register, with the same addresses and values.");
    table(
        &[Column::Ours, Column::Singly, Column::Plain, Column::Copy],
        &[Column::Singly, Column::Plain],
        cases::bursts,
    );
    #[cfg(before)]
    {
        println!("\nBefore is the library that OFERSKY_BEFORE names; for sp_row, its run of as many words, and for a burst its single calls.");
        table(
            &[Column::Ours, Column::Before, Column::Plain],
            &[Column::Before],
            cases::before_and_after,
        );
    }
}

/// Shows lines as they are measured, with what ours takes of some columns, and then what has become
/// of the aims.
fn table(columns: &[Column], ratios: &[Column], lines: fn(&mut dyn FnMut(Line))) {
    head(columns, ratios);
    let mut worst = Worst::default();
    lines(&mut |line| {
        worst.see(&line, ratios);
        show(&line, ratios);
    });
    worst.show();
}

fn head(columns: &[Column], ratios: &[Column]) {
    let titles = columns.iter().map(|column| title(column.name()));
    let ratios = ratios.iter().map(|of| format!("Ours / {}", of.name()));
    let titles: Vec<String> = titles.chain(ratios).collect();
    println!("\n| What | Size | {} |", titles.join(" | "));
    println!("|---|--:{}|", "|--:".repeat(titles.len()));
}

fn title(name: &str) -> String {
    let (first, rest) = name.split_at(1);
    first.to_uppercase() + rest
}

fn show(line: &Line, ratios: &[Column]) {
    let times = line.times.iter().map(|(_, time)| format!("{time:.3}"));
    let ratios = ratios.iter().map(|of| format!("{:.2}", line.ratio(*of)));
    let cells: Vec<String> = times.chain(ratios).collect();
    println!("| {} | {} | {} |", line.what, line.size, cells.join(" | "));
}

/// The greatest ratio of the lines that have an aim, by the aim's name and column.
#[derive(Default)]
struct Worst(Vec<(Aim, f64)>);

impl Worst {
    fn see(&mut self, line: &Line, ratios: &[Column]) {
        for aim in line.aims.iter().filter(|aim| ratios.contains(&aim.of)) {
            let ratio = line.ratio(aim.of);
            match self.0.iter_mut().find(|(seen, _)| seen == aim) {
                Some((_, worst)) => *worst = worst.max(ratio),
                None => self.0.push((aim.clone(), ratio)),
            }
        }
    }

    fn show(&self) {
        println!();
        for (Aim { name, of, most }, ratio) in &self.0 {
            let of = of.name();
            let met = if ratio <= most { "met" } else { "missed" };
            println!("{name}: ours / {of} is at most {ratio:.2}; the aim of {most:.2} is {met}.");
        }
    }
}
