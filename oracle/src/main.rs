//! Compares `intake` with calamine's `StyleRange` on random sessions: the box, the runs of ids, get at
//! every position of the box and around it, and the walk.
//!
//!     CALAMINE_SRC=FOLDER cargo run --release --bin oracle -- ../crates/intake/out/intake 1000
#[allow(dead_code)]
mod style {
    include!(concat!(env!("OUT_DIR"), "/style.rs"));

    /// What `intake` says of a range.
    pub fn runs(range: &StyleRange) -> String {
        let mut text = String::new();
        for (id, end) in range.run_ids.iter().zip(&range.run_ends) {
            text += &format!(" {id}:{end}");
        }
        text
    }

    /// The number of a style that the range lends.
    pub fn number(range: &StyleRange, style: &Style) -> usize {
        let from = range.palette.as_ptr() as usize;
        (style as *const Style as usize - from) / std::mem::size_of::<Style>()
    }

    pub fn range(cells: Vec<(u32, u32, usize)>, styles: usize) -> StyleRange {
        StyleRange::from_style_ids(cells, vec![Style::new(); styles])
    }
}

use std::io::Write;
use std::process::{Command, Stdio};

struct Random(u64);

impl Random {
    fn below(&mut self, n: u64) -> u64 {
        self.0 = self.0.wrapping_mul(6364136223846793005).wrapping_add(1442695040888963407);
        (self.0 >> 33) % n
    }
}

/// A session, and what the Rust makes of it.
fn session(random: &mut Random) -> (String, String) {
    let styles = 1 + random.below(5) as usize;
    let mut input = String::from("sheet loader 100 300\n");
    let mut answers = String::from("sheet loader 100 300 -> ready\n");
    for number in 0..styles {
        input += "xf Other\n";
        answers += &format!("xf Other -> xf {number}\n");
    }
    let corner = [(0, 0), (1_048_560, 16_370), (7, 11)][random.below(3) as usize];
    let spread = 1 + random.below(12);
    let mut cells: Vec<(u32, u32, usize)> = Vec::new();
    for _ in 0..random.below(40) {
        let row = corner.0 + random.below(spread) as u32;
        let column = corner.1 + random.below(spread) as u32;
        let id = random.below(styles as u64 + 2) as usize;
        if cells.iter().any(|cell| (cell.0, cell.1) == (row, column)) {
            continue;
        }
        cells.push((row, column, id));
        let kept = if id > 0 && id < styles { "kept" } else { "ignored" };
        input += &format!("loader put {row} {column} {id}\n");
        answers += &format!("loader put {row} {column} {id} -> {kept}\n");
    }
    input += "loader pack\nloader runs\nloader walk\n";
    let range = style::range(cells, styles);
    let runs = style::runs(&range);
    let kinds = i32::from(!range.is_empty());
    let count = runs.split_whitespace().count();
    answers += &format!("loader pack -> packed {count} {kinds}\n");
    let places: Vec<(u32, u32, usize)> =
        range.cells().map(|(row, column, style)| (row, column, style::number(&range, style))).collect();
    match (range.start(), range.end()) {
        (Some(start), Some(end)) => {
            answers += &format!("loader runs -> box {} {} {} {} ids{runs} kinds Other:{}\n", start.0, start.1, end.0, end.1, places.len());
        }
        _ => answers += "loader runs -> no box\n",
    }
    answers += &format!("loader walk -> {}\n", places.len());
    for (row, column, number) in &places {
        answers += &format!("  {row} {column} style {number}\n");
    }
    for row in corner.0.saturating_sub(1)..corner.0 + spread as u32 + 1 {
        for column in corner.1.saturating_sub(1)..corner.1 + spread as u32 + 1 {
            input += &format!("loader get {row} {column}\n");
            let answer = match range.get((row, column)) {
                Some(style) => format!("style {}", style::number(&range, style)),
                None => String::from("none"),
            };
            answers += &format!("loader get {row} {column} -> {answer}\n");
        }
    }
    (input, answers)
}

fn main() {
    let mut words = std::env::args().skip(1);
    let program = words.next().expect("the path of intake");
    let count: u64 = words.next().and_then(|word| word.parse().ok()).unwrap_or(1000);
    let mut lines = 0;
    for seed in 0..count {
        let (input, expected) = session(&mut Random(seed));
        let mut child = Command::new(&program).stdin(Stdio::piped()).stdout(Stdio::piped()).spawn().expect("intake starts");
        let mut stdin = child.stdin.take().unwrap();
        let writer = std::thread::spawn(move || stdin.write_all(input.as_bytes()));
        let output = child.wait_with_output().expect("intake ends");
        writer.join().unwrap().expect("intake reads its input");
        let given = String::from_utf8_lossy(&output.stdout);
        if given != expected {
            for (a, b) in given.lines().zip(expected.lines()).filter(|(a, b)| a != b).take(5) {
                println!("seed {seed}: intake: {a}\n       calamine: {b}");
            }
            std::process::exit(1);
        }
        lines += expected.lines().count();
    }
    println!("{count} sessions, {lines} answers, all the same");
}
