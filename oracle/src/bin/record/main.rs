//! Writes the vectors that the program `vectors` reads, but for those of references, which
//! `decode.py` writes:
//!
//!     cd oracle
//!     CALAMINE_SRC=FOLDER cargo run --release --bin record > ../crates/vectors/stdin
//!     python3 decode.py >> ../crates/vectors/stdin
//!
//! A line is a word for the family, one or more texts, and the answer that each of the texts has, with
//! one space between them. In a text every byte outside `!`..`~`, and `%` and `|`, is written `%XX`;
//! an empty text is `-`, and a text that is a lone `-` is `%2D`.
mod decimals;
mod items;
mod notation;
mod wholes;

use notation::Recorder;

/// Random numbers, the same in every run.
pub struct Random(pub u64);

impl Random {
    pub fn below(&mut self, n: u64) -> u64 {
        ((self.next() as u128 * n as u128) >> 64) as u64
    }

    /// SplitMix64.
    pub fn next(&mut self) -> u64 {
        self.0 = self.0.wrapping_add(0x9e37_79b9_7f4a_7c15);
        let mut x = self.0;
        x = (x ^ (x >> 30)).wrapping_mul(0xbf58_476d_1ce4_e5b9);
        x = (x ^ (x >> 27)).wrapping_mul(0x94d0_49bb_1331_11eb);
        x ^ (x >> 31)
    }
}

fn main() {
    let mut recorder = Recorder::default();
    items::record(&mut recorder);
    decimals::record(&mut recorder, &mut Random(38));
    wholes::record(&mut recorder);
    recorder.write();
}
