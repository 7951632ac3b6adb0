//! How a vector is written.
use std::collections::{HashMap, HashSet};
use std::fmt::Write as _;
use std::io::{stdout, BufWriter, Write as _};

/// A byte that a text may show as it is.
fn is_plain(byte: u8) -> bool {
    (b'!'..=b'~').contains(&byte) && byte != b'%' && byte != b'|'
}

/// A part of a field.
pub fn part(text: &[u8], also: &[u8]) -> String {
    let mut out = String::new();
    for &byte in text {
        if is_plain(byte) && !also.contains(&byte) {
            out.push(byte as char);
        } else {
            write!(out, "%{byte:02X}").unwrap();
        }
    }
    out
}

/// A whole field.
pub fn field(text: &[u8]) -> String {
    match text {
        [] => "-".into(),
        b"-" => "%2D".into(),
        _ => part(text, &[]),
    }
}

/// At most so many texts share a line.
const SHARING: usize = 64;

/// The vectors of a family: each answer, in the order in which they came, with its texts.
#[derive(Default)]
struct Family {
    answers: Vec<(String, Vec<String>)>,
    places: HashMap<String, usize>,
    seen: HashSet<Vec<u8>>,
}

/// Collects vectors, each text of a family once.
#[derive(Default)]
pub struct Recorder {
    families: Vec<(String, Family)>,
}

impl Recorder {
    /// The family with that name.
    fn family(&mut self, name: &str) -> &mut Family {
        let place = match self.families.iter().position(|(other, _)| other == name) {
            Some(place) => place,
            None => {
                self.families.push((name.into(), Family::default()));
                self.families.len() - 1
            }
        };
        &mut self.families[place].1
    }

    pub fn add(&mut self, family: &str, text: &[u8], answer: &str) {
        let family = self.family(family);
        if !family.seen.insert(text.to_vec()) {
            return;
        }
        let place = *family.places.entry(answer.into()).or_insert_with(|| {
            family.answers.push((answer.into(), Vec::new()));
            family.answers.len() - 1
        });
        family.answers[place].1.push(field(text));
    }

    /// Writes all vectors to standard output, texts with the same answer on one line, and says on
    /// standard error how many each family has.
    pub fn write(&self) {
        let mut out = BufWriter::new(stdout());
        for (name, family) in &self.families {
            for (answer, texts) in &family.answers {
                for texts in texts.chunks(SHARING) {
                    writeln!(out, "{name} {} {answer}", texts.join(" ")).expect("the vectors can be written");
                }
            }
            eprintln!("{name}: {}", family.seen.len());
        }
    }
}
