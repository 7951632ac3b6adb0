//! Attribute texts, and the items that calamine's iterator gives for them.
use crate::notation::{part, Recorder};

/// calamine's `attrs.rs`, over stand-ins for what it takes from quick_xml.
#[allow(dead_code, unused_macros)]
mod attrs {
    mod quick_xml {
        pub enum Error {
            Escape(escape::EscapeError),
        }

        impl From<escape::EscapeError> for Error {
            fn from(error: escape::EscapeError) -> Error {
                Error::Escape(error)
            }
        }

        pub mod escape {
            pub struct EscapeError;

            /// Never called here: the iterator gives raw values.
            pub fn unescape(text: &str) -> Result<std::borrow::Cow<'_, str>, EscapeError> {
                Ok(text.into())
            }
        }

        pub mod events {
            pub mod attributes {
                pub enum AttrError {
                    ExpectedEq(usize),
                    UnquotedValue(usize),
                }
            }

            /// An element's start: its attribute text.
            pub struct BytesStart<'a>(pub &'a str);

            impl BytesStart<'_> {
                pub fn attributes_raw(&self) -> &str {
                    self.0
                }
            }
        }
    }

    include!(concat!(env!("OUT_DIR"), "/attrs.rs"));

    /// What the iterator gives for the text; none where an item is an error.
    pub fn items(text: &str) -> Option<Vec<(String, String)>> {
        let start = BytesStart(text);
        let mut items = Vec::new();
        for item in start.iter_raw_attrs() {
            let (key, value) = item.ok()?;
            items.push((key.into(), value.into()));
        }
        Some(items)
    }
}

/// The white space of XML.
const WHITE: [char; 4] = [' ', '\t', '\n', '\r'];

/// The number under which our rules refuse an attribute text, by a plain reading of them: that of the
/// first faulty item, and in that item the lowest. None for a text that they accept.
fn refusal(text: &str) -> Option<u8> {
    let mut keys = Vec::new();
    let mut rest = text;
    loop {
        let item = rest.trim_start_matches(WHITE);
        if item.is_empty() {
            return None;
        }
        // 4: no key with = after it; a key has no white space and no quotes
        let Some((before, after)) = item.split_once('=') else {
            return Some(4);
        };
        let key = before.trim_end_matches(WHITE);
        if key.is_empty() || key.contains(WHITE) || key.contains(['"', '\'']) {
            return Some(4);
        }
        // 5: no quote after =
        let value = after.trim_start_matches(WHITE);
        let Some(quote) = value.chars().next().filter(|mark| ['"', '\''].contains(mark)) else {
            return Some(5);
        };
        // 6: the value is not closed
        let Some((_, tail)) = value[1..].split_once(quote) else {
            return Some(6);
        };
        // 4: neither white space nor the end after the value
        if !tail.is_empty() && !tail.starts_with(WHITE) {
            return Some(4);
        }
        // 7: the key stands in an earlier item
        if keys.contains(&key) {
            return Some(7);
        }
        keys.push(key);
        rest = tail;
    }
}

/// The items as the file writes them.
fn shown(items: &[(String, String)]) -> String {
    if items.is_empty() {
        return "none".into();
    }
    let shown: Vec<String> =
        items.iter().map(|(key, value)| format!("{}={}", part(key.as_bytes(), b"="), part(value.as_bytes(), b"="))).collect();
    shown.join("|")
}

/// The answer for a text: `error|N` where calamine gives an error and our rules refuse with the number
/// N; `|N|ITEMS` where calamine gives items and our rules refuse; ITEMS where our rules accept.
fn answer(text: &str) -> String {
    match (attrs::items(text), refusal(text)) {
        (None, Some(number)) => format!("error|{number}"),
        (Some(items), Some(number)) => format!("|{number}|{}", shown(&items)),
        (Some(items), None) => shown(&items),
        (None, None) => panic!("our rules accept what calamine calls an error: {text:?}"),
    }
}

/// Records each text made of `count` of the tokens.
fn words(recorder: &mut Recorder, tokens: &[&str], count: usize, front: &str) {
    if count == 0 {
        recorder.add("items", front.as_bytes(), &answer(front));
        return;
    }
    for token in tokens {
        words(recorder, tokens, count - 1, &format!("{front}{token}"));
    }
}

/// Attribute texts as stylesheets and themes have them.
const REAL: [&str; 20] = [
    "numFmtId=\"164\" fontId=\"1\" fillId=\"2\" borderId=\"0\" xfId=\"0\" applyNumberFormat=\"1\"",
    " numFmtId=\"14\" xfId=\"0\" quotePrefix=\"1\"",
    "val=\"Calibri\"",
    "val=\"\u{ff2d}\u{ff33} \u{ff30}\u{30b4}\u{30b7}\u{30c3}\u{30af}\"",
    "val=\"11\" ",
    "theme=\"4\" tint=\"-0.249977111117893\"",
    "rgb=\"FFFF0000\"",
    "numFmtId=\"164\" formatCode=\"&quot;$&quot;#,##0.00\"",
    "name=\"Normal\" xfId=\"0\" builtinId=\"0\"",
    "style=\"thin\"",
    "val=\"4F81BD\"",
    "val=\"windowText\" lastClr=\"000000\"",
    "count=\"2\" defaultTableStyle=\"TableStyleMedium9\"",
    "count=\"2\" x14ac:knownFonts=\"1\"",
    "mc:Ignorable=\"x14ac\" xmlns:x14ac=\"http://x/2009/9/ac\"",
    "horizontal='center' wrapText = '1'",
    "name='it said \"no\"' customBuiltin=\"it's\"",
    "numFmtId=\"14\"\r\n\tformatCode=\"d/m/yy\"\n xfId=\"1\"",
    "patternType=\"\"",
    "diagonalUp=\"1\" diagonalUp=\"0\"",
];

/// Records a real text, cut off at every byte, and with every byte replaced.
fn around(recorder: &mut Recorder, text: &str) {
    let bytes = text.as_bytes();
    let mut texts: Vec<Vec<u8>> = (0..=bytes.len()).map(|end| bytes[..end].to_vec()).collect();
    for place in 0..bytes.len() {
        for byte in *b" =\"'&\x0c" {
            let mut changed = bytes.to_vec();
            changed[place] = byte;
            texts.push(changed);
        }
    }
    for text in texts {
        // the iterator is over a str
        if let Ok(text) = std::str::from_utf8(&text) {
            recorder.add("items", text.as_bytes(), &answer(text));
        }
    }
}

/// Items with the keys of these numbers.
fn keyed(numbers: &[usize]) -> String {
    let shown: Vec<String> = numbers.iter().map(|number| format!("k{number}=\"\"")).collect();
    shown.join(" ")
}

/// Records texts of many items in which one key stands twice, or none.
fn repeated(recorder: &mut Recorder) {
    let mut add = |text: String| recorder.add("items", text.as_bytes(), &answer(&text));
    for later in 0..12 {
        for earlier in 0..=later {
            let mut numbers: Vec<usize> = (0..12).collect();
            numbers[later] = earlier;
            add(keyed(&numbers));
        }
    }
    for (later, earlier) in [(299, 299), (299, 0), (299, 298), (150, 149)] {
        let mut numbers: Vec<usize> = (0..300).collect();
        numbers[later] = earlier;
        add(keyed(&numbers));
    }
    for length in [2046, 2047, 2048, 2049] {
        add(format!("a=\"{}\" b=\"\" a=\"\"", "v".repeat(length - 14)));
    }
}

pub fn record(recorder: &mut Recorder) {
    for count in 0..=6 {
        words(recorder, &["a", "=", "\"", "'", " "], count, "");
    }
    for count in 0..=5 {
        words(recorder, &["a", "b", "=", " = ", "\"\"", "'x'", " ", "\t", "\""], count, "");
    }
    for count in 0..=5 {
        words(recorder, &["a", "=", "\"", "\x0c"], count, "");
    }
    // whole items, with and without white space between them, and with repeated keys
    for count in 0..=6 {
        words(recorder, &["a=\"\"", "b='x'", "ab=\"1\"", " "], count, "");
    }
    for text in REAL {
        around(recorder, text);
    }
    repeated(recorder);
}
