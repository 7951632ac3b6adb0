//! Decimals, and the binary64 that each is.
//!
//! The bits are those of Rust's own `str::parse::<f64>` (core::num::dec2flt of the Rust that builds
//! this; recorded with rustc 1.95), which is correctly rounded and shares no code with what is compared.
//! It reads more than our rules do, so whether a decimal is readable is decided here, on its digits as
//! text.
use crate::notation::Recorder;
use crate::Random;

/// Digits without the zeros in front.
fn significant(digits: &str) -> &str {
    digits.trim_start_matches('0')
}

fn all_digits(text: &str) -> bool {
    text.bytes().all(|byte| byte.is_ascii_digit())
}

/// Whether a text is a decimal that the rules read: an optional minus, digits with at most one point
/// and at least one digit, and optionally e or E, an optional sign and digits; with w, all digits
/// before the exponent as one number, below 10^18, and k, the count of digits after the point less the
/// exponent, from 0 to 18.
fn is_readable(text: &str) -> bool {
    let size = text.strip_prefix('-').unwrap_or(text);
    let (digits, exponent) = match size.split_once(['e', 'E']) {
        Some((digits, exponent)) => (digits, Some(exponent)),
        None => (size, None),
    };
    let (whole, fraction) = digits.split_once('.').unwrap_or((digits, ""));
    if !all_digits(whole) || !all_digits(fraction) || whole.len() + fraction.len() == 0 {
        return false;
    }
    if significant(&format!("{whole}{fraction}")).len() > 18 {
        return false;
    }
    let power = match exponent {
        None => 0,
        Some(exponent) => {
            let digits = exponent.strip_prefix(['-', '+']).unwrap_or(exponent);
            if digits.is_empty() || !all_digits(digits) || significant(digits).len() > 30 {
                // with more digits than that, no text is long enough to bring k back
                return false;
            }
            let power = significant(digits).parse::<i128>().unwrap_or(0);
            if exponent.starts_with('-') { -power } else { power }
        }
    };
    (0..=18).contains(&(fraction.len() as i128 - power))
}

fn add(recorder: &mut Recorder, text: &str) {
    let answer = if is_readable(text) {
        let value: f64 = text.parse().expect("what is readable is a number");
        format!("{:016x}", value.to_bits())
    } else {
        "none".into()
    };
    recorder.add("decimal", text.as_bytes(), &answer);
}

/// w / 10^k with a point.
fn fixed(w: u64, k: usize) -> String {
    let digits = format!("{w:0width$}", width = k + 1);
    let (whole, fraction) = digits.split_at(digits.len() - k);
    if k == 0 {
        whole.into()
    } else {
        format!("{whole}.{fraction}")
    }
}

/// w / 10^k with an exponent, and the point after so many digits.
fn scientific(w: u64, k: usize, before: usize) -> String {
    let digits = w.to_string();
    let (whole, fraction) = digits.split_at(before.min(digits.len()));
    let exponent = fraction.len() as i64 - k as i64;
    if fraction.is_empty() {
        format!("{whole}E{exponent}")
    } else {
        format!("{whole}.{fraction}E{exponent}")
    }
}

const TOO_LARGE: u64 = 1_000_000_000_000_000_000;

/// Forms that are not numbers, or hardly.
fn shapes(recorder: &mut Recorder) {
    let marks = ["", "-", "+", ".", "e", "E", "1", "0", "05", " ", "e5", "e-1", "e+0", "..", "-1", "+1"];
    for a in marks {
        for b in marks {
            for c in marks {
                add(recorder, &format!("{a}{b}{c}"));
            }
        }
    }
    for text in [
        "5.", ".5", ".", "", "-", "-0", "-0.0", "-.0e0", "+1", "1e", "1e+", "1e-", "1.2.3", "1 .5", "1. 5", "1e 5", "1 ", " 1", "1e5.0", "1e0.5",
        "1e1e1", "1-1", "--1", "-+1", "1e--1", "1e+-1", "inf", "-inf", "NaN", "nan", "infinity", "0x10", "1f", "1_0", "1,5", "\u{0661}", "1d0", "1p0",
    ] {
        add(recorder, text);
    }
}

/// Around the limits of w and k.
fn limits(recorder: &mut Recorder) {
    let zeros = "0".repeat(200);
    for w in [0, 1, 9, 10, TOO_LARGE / 10, TOO_LARGE - 2, TOO_LARGE - 1, TOO_LARGE, TOO_LARGE + 1, TOO_LARGE * 10, u64::MAX, 1 << 53, (1 << 53) + 1] {
        for k in 0..=20 {
            for sign in ["", "-"] {
                add(recorder, &format!("{sign}{}", fixed(w, k)));
                add(recorder, &format!("{sign}{w}e-{k}"));
                add(recorder, &format!("{sign}{w}E+{k}"));
                add(recorder, &format!("{sign}{}", scientific(w, k, 1)));
            }
        }
        add(recorder, &format!("{zeros}{w}"));
        add(recorder, &format!("{zeros}{w}.5"));
        add(recorder, &format!("{w}e{zeros}0"));
        add(recorder, &format!("{w}e-{zeros}7"));
        add(recorder, &format!("{w}.{zeros}"));
        add(recorder, &format!("{w}.{zeros}e200"));
        add(recorder, &format!("0.{zeros}{w}e200"));
        add(recorder, &format!("0.{zeros}{w}e+0000182"));
    }
    // 10^18 - 1 and 10^18 with the point at every place
    for place in 0..=18 {
        add(recorder, &format!("{}.{}", &"999999999999999999"[..place], &"999999999999999999"[place..]));
        add(recorder, &format!("{}.{}", &"1000000000000000000"[..place + 1], &"1000000000000000000"[place + 1..]));
        add(recorder, &format!("0{}.{}", &"100000000000000000"[..place], &"100000000000000000"[place..]));
    }
    for exponent in -25..=25i32 {
        for mantissa in ["1", "1.5", "0.25", "123456789.123456789", "0.000000000000000001", "1.0000000000000000"] {
            for sign in ["", "-"] {
                add(recorder, &format!("{sign}{mantissa}e{exponent}"));
                add(recorder, &format!("{sign}{mantissa}E{exponent:+04}"));
            }
        }
    }
    // exponents past every width
    for exponent in ["255", "256", "65536", "4294967296", "4294967295", "18446744073709551615", "18446744073709551616", "18446744073709551634", "340282366920938463463374607431768211456"] {
        for mantissa in ["0", "1", "1.5", "0.000000000000000001"] {
            for sign in ["", "+", "-"] {
                add(recorder, &format!("{mantissa}e{sign}{exponent}"));
                add(recorder, &format!("{mantissa}e{sign}000{exponent}"));
            }
        }
    }
    for zeros in 1..60 {
        add(recorder, &format!("1e-{}5", "0".repeat(zeros)));
        add(recorder, &format!("1e+{}", "0".repeat(zeros)));
        add(recorder, &format!("1e1{}", "0".repeat(zeros)));
        add(recorder, &format!("1e-1{}", "0".repeat(zeros)));
        add(recorder, &format!("0.{}1", "0".repeat(zeros)));
    }
}

/// Tints and other numbers as workbooks have them.
const REAL: [&str; 36] = [
    "-0.249977111117893", "0.39997558519241921", "0.79998168889431442", "-9.9978637043366805E-2", "0.59999389629810485", "-0.499984740745262",
    "-0.14999847407452621", "-4.9989318521683403E-2", "0.34998626667073579", "0.249977111117893", "4.9989318521683403E-2", "0.499984740745262",
    "9.9978637043366805E-2", "-0.34998626667073579", "-0.74999237037263098", "-0.89999084444715716", "0.14999847407452621", "0.79998168889431",
    "0.599993896298105", "0.399975585192419", "0.799981688894314", "-0.0999786370433668", "0.0499893185216834", "-0.24994659260841701",
    "0.89999084444715716", "-0.249977111117893e0", "11", "10.5", "8", "0", "0.0", "-1", "1", "1.0", "12.75", "0.90000000000000002",
];

/// Decimals exactly halfway between two binary64, with their neighbours: an odd number of 54 binary
/// digits times 2^j and 5^k, over 10^k, is such a tie, and below 10^18 there are these only.
fn ties(recorder: &mut Recorder, random: &mut Random) {
    for w in (1..60).map(|n| (1u64 << 53) + 2 * n - 1) {
        add(recorder, &w.to_string());
        add(recorder, &format!("{w}0e-1"));
    }
    for (k, scale) in [(0, 1), (0, 2), (0, 4), (0, 8), (0, 16), (0, 32), (0, 64), (1, 5), (1, 10), (1, 20), (1, 40), (1, 80), (2, 25), (2, 50), (2, 100), (3, 100), (4, 100)] {
        for _ in 0..60 {
            let odd = (1u64 << 53) + 2 * random.below(1 << 52) + 1;
            let Some(w) = odd.checked_mul(scale).filter(|w| *w < TOO_LARGE) else {
                continue;
            };
            for w in [w - 1, w, w + 1] {
                let sign = if random.below(4) == 0 { "-" } else { "" };
                add(recorder, &format!("{sign}{}", fixed(w, k)));
            }
            add(recorder, &scientific(w, k, 1));
        }
    }
}

/// Decimals as near as 18 digits come to the middle of two binary64: w is the whole number next to
/// 10^k (2 m + 1) / 2^(53 + q), for k up to 18.
fn close_calls(recorder: &mut Recorder, random: &mut Random) {
    for _ in 0..1000 {
        let k = 1 + random.below(18) as u32;
        let q = random.below(64) as u32;
        let odd = (1u128 << 53) + 2 * u128::from(random.below(1 << 52)) + 1;
        let w = (odd * 10u128.pow(k)) >> (q + 1);
        if w < 1 << 53 || w + 1 >= u128::from(TOO_LARGE) {
            continue;
        }
        for w in [w as u64, w as u64 + 1] {
            add(recorder, &fixed(w, k as usize));
        }
    }
}

/// Random decimals of 15 to 18 digits, with 0 to 18 places.
fn randoms(recorder: &mut Recorder, random: &mut Random, count: usize) {
    for _ in 0..count {
        let digits = 15 + random.below(4) as u32;
        let least = 10u64.pow(digits - 1);
        let w = least + random.below(least * 9);
        let k = random.below(19) as usize;
        let sign = if random.below(3) == 0 { "-" } else { "" };
        let text = match random.below(6) {
            0 => scientific(w, k, 1 + random.below(18) as usize),
            1 => scientific(w, k, 1),
            _ => fixed(w, k),
        };
        add(recorder, &format!("{sign}{text}"));
    }
}

pub fn record(recorder: &mut Recorder, random: &mut Random) {
    for text in REAL {
        add(recorder, text);
    }
    shapes(recorder);
    limits(recorder);
    ties(recorder, random);
    close_calls(recorder, random);
    randoms(recorder, random, 7000);
}
