//! Whole numbers.
use crate::notation::Recorder;

/// The answer at a width: Rust's own, of a text that is all digits.
fn answer(bits: u32, text: &str) -> String {
    if text.is_empty() || !text.bytes().all(|byte| byte.is_ascii_digit()) {
        return "none".into();
    }
    let number = match bits {
        8 => text.parse::<u8>().map(u64::from),
        16 => text.parse::<u16>().map(u64::from),
        32 => text.parse::<u32>().map(u64::from),
        _ => text.parse::<u64>(),
    };
    match number {
        Ok(number) => number.to_string(),
        Err(_) => "none".into(),
    }
}

/// A number, with zeros in front, with signs, and with what is no digit at each place.
fn around(texts: &mut Vec<String>, number: u128) {
    let text = number.to_string();
    texts.push(text.clone());
    for zeros in [1, 2, 19, 20] {
        texts.push(format!("{}{text}", "0".repeat(zeros)));
    }
    for (front, back) in [("+", ""), ("-", ""), (" ", ""), ("", " "), ("", "."), ("", "e0")] {
        texts.push(format!("{front}{text}{back}"));
    }
    for place in 0..=text.len() {
        let (front, back) = text.split_at(place);
        // the bytes before 0 and after 9
        let mark = if place % 2 == 0 { '/' } else { ':' };
        texts.push(format!("{front}{mark}{back}"));
    }
}

/// Numbers around 2^bits.
fn limits(texts: &mut Vec<String>, bits: u32) {
    let limit = 1u128 << bits;
    for number in [limit - 2, limit - 1, limit, limit + 1] {
        around(texts, number);
    }
    for number in [limit / 10, limit / 2, limit * 2, limit * 10, limit * 10 + 9, limit / 10 * 10, limit / 10 * 10 + 9] {
        texts.push(number.to_string());
    }
}

fn texts() -> Vec<String> {
    let mut texts: Vec<String> =
        ["", "-", "+", " ", "0x10", "1_000", "1,000", "1 000", "\u{0661}", "\u{ff11}", "\0", "1\0", "--1", "00", "+0", "-0"].map(String::from).into();
    texts.extend((0..300).map(|number| number.to_string()));
    for bits in [8, 16, 32, 64] {
        limits(&mut texts, bits);
    }
    // a product or a sum that would wrap at 64 bits
    for number in [18446744073709551610u128, 18446744073709551619, 18446744073709551620, 18446744073709551625, 36893488147419103232, 184467440737095516150, 184467440737095516160] {
        around(&mut texts, number);
    }
    for zeros in [100, 300] {
        for number in [0u128, 7, 255, 256, 65535, 65536, 4294967295, 4294967296, 18446744073709551615, 18446744073709551616] {
            texts.push(format!("{}{number}", "0".repeat(zeros)));
        }
        texts.push("9".repeat(zeros));
    }
    for digits in 1..30 {
        texts.push("9".repeat(digits));
        texts.push(format!("1{}", "0".repeat(digits)));
    }
    texts
}

pub fn record(recorder: &mut Recorder) {
    let texts = texts();
    for bits in [8, 16, 32, 64] {
        for text in &texts {
            recorder.add(&format!("whole {bits}"), text.as_bytes(), &answer(bits, text));
        }
    }
}
