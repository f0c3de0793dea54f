//! Texts as a person types them: right ones with what they say, and wrong ones with what is said of them.
use crate::{text_of, Line};
use inputs::Circuit;

/// The circuits of the scope paper's listing, on 5 links with 2 wavelengths.
pub const LISTING: [Circuit; 4] = [(10, 1, 3), (20, 2, 5), (30, 1, 2), (40, 4, 5)];

/// The most bytes of a text.
pub const MOST_BYTES: usize = 1_048_576;

/// A text, and the line and the circuits that it says.
pub type Right = (Vec<u8>, Line, Vec<Circuit>);

/// m circuits over link 1, numbered from 1.
pub fn on_link_1(m: u32) -> Vec<Circuit> {
    (1..=m).map(|number| (number, 1, 1)).collect()
}

/// A text with blanks behind it, to have so many bytes.
fn padded(text: &str, bytes: usize) -> Vec<u8> {
    let mut text = text.as_bytes().to_vec();
    text.resize(bytes, b' ');
    text
}

/// A text with empty lines before it, to have as many bytes as a text may, and the number of its first line.
fn far_down(text: &str) -> (Vec<u8>, usize) {
    let before = MOST_BYTES - text.len();
    ([&vec![b'\n'; before], text.as_bytes()].concat(), before + 1)
}

/// A text that is right.
fn says(text: impl Into<Vec<u8>>, line: impl Into<Line>, circuits: &[Circuit]) -> Right {
    (text.into(), line.into(), circuits.to_vec())
}

/// Texts that name the grid, whatever it is.
fn with_a_grid() -> Vec<Right> {
    let listing = text_of((5, 2, 2), &LISTING);
    vec![
        says(text_of((5, 2, 1), &LISTING), (5, 2, 1), &LISTING),
        says(listing.trim_end(), (5, 2, 2), &LISTING),
        says(listing.replace('\n', "\r\n"), (5, 2, 2), &LISTING),
        says(listing.replace(' ', "\t"), (5, 2, 2), &LISTING),
        says(listing.replace('\n', " \t\n\n"), (5, 2, 2), &LISTING),
        says(far_down("5 2 2").0, (5, 2, 2), &[]),
        says("5 2 1", (5, 2, 1), &[]),
        says("# a line\n\n5 2\t00002 \n# 5 2\n", (5, 2, 2), &[]),
        says("5 41 1\n7 1 1\n", (5, 41, 1), &[(7, 1, 1)]),
        says("5 41 2\n7 1 1\n", (5, 41, 2), &[(7, 1, 1)]),
        says("5 80 2\n", (5, 80, 2), &[]),
        says("5 81 2\n", (5, 81, 2), &[]),
        says("2 5 1\n", (2, 5, 1), &[]),
        says("1 2 5\n", (1, 2, 5), &[]),
        says("5 2 0\n", (5, 2, 0), &[]),
        says("5 0 3\n", (5, 0, 3), &[]),
        says("5 2 258\n", (5, 2, 258), &[]),
        says(
            "65535 65535 65535\n0 0 0\n",
            (65_535, 65_535, 65_535),
            &[(0, 0, 0)],
        ),
    ]
}

/// Texts that are right.
pub fn right_texts() -> Vec<Right> {
    let listing = text_of((5, 2), &LISTING);
    let of_listing = |text: String| says(text, (5, 2), &LISTING);
    let most = on_link_1(2048);
    let mut texts = vec![
        of_listing(listing.clone()),
        of_listing(listing.trim_end().to_owned()),
        of_listing(listing.replace('\n', "\r\n")),
        of_listing(listing.replace(' ', "\t")),
        of_listing(listing.replace(' ', " \t\r ")),
        of_listing(listing.replace('\n', " \t\n\n \t\r\n")),
        of_listing(format!("\n\n \n# 6 3\n{listing}\n\n")),
        of_listing(format!("#\n#5 3\n  # x\n{listing}#")),
        of_listing(listing.replace('\n', "\n# 50 1 1\n \t# 60 1 1 # é\u{0}\n")),
        of_listing(
            listing
                .trim_end()
                .replace(' ', " 000")
                .replace('\n', "\n00"),
        ),
        says(padded(&listing, MOST_BYTES), (5, 2), &LISTING),
        says(far_down(&listing).0, (5, 2), &LISTING),
        says(far_down("5 41\n").0, (5, 41), &[]),
        says(text_of((1, 40), &most), (1, 40), &most),
        says("5 2", (5, 2), &[]),
        says("5 2\n", (5, 2), &[]),
        says("# a line\n\n5 2\n# no circuits\n", (5, 2), &[]),
        says("2 5\n", (2, 5), &[]),
        says("256 1\n258 257 258\n", (256, 1), &[(258, 257, 258)]),
        says(
            "1 1\n16909060 772 1286\n",
            (1, 1),
            &[(16_909_060, 772, 1286)],
        ),
        says(
            "1 1\n4294967295 65535 65535\n",
            (1, 1),
            &[(u32::MAX, 65_535, 65_535)],
        ),
        says("65535 65535\n0 0 0\n", (65_535, 65_535), &[(0, 0, 0)]),
        says("0 0\n7 1 1\n7 1 1\n", (0, 0), &[(7, 1, 1), (7, 1, 1)]),
    ];
    // A comment that ends at the last byte that is read.
    let comment = format!("{listing}#{}", "x".repeat(MOST_BYTES - listing.len() - 1));
    texts.push(of_listing(comment));
    texts.extend(with_a_grid());
    texts
}

/// Words of a line that should be `n w` or `n w grid`, and what is wrong with them.
const WRONG_HEADERS: [(&[u8], &str); 39] = [
    (b"5", "a number missing"),
    (b"5 \t\r", "a number missing"),
    (b"5 # 2", "not a number"),
    (b"-5 2", "a sign"),
    (b"+5 2", "a sign"),
    (b"5 -2", "a sign"),
    (b"5 +", "a sign"),
    (b"- 5 2", "a sign"),
    (b"\xef\xbb\xbf5 2", "a byte order mark"),
    (b"\xef\xbb\xbf", "a byte order mark"),
    (b"\xef\xbb\xbf# x", "a byte order mark"),
    (b"\xef\xbb5 2", "not a number"),
    (b"n w", "not a number"),
    (b"5 two", "not a number"),
    (b"5,2", "not a number"),
    (b"5.0 2", "not a number"),
    (b"5 0x2", "not a number"),
    (b"5 2\x00", "not a number"),
    (b"5 2#", "not a number"),
    (b"65536 2", "a number too large"),
    (b"5 65536", "a number too large"),
    (
        b"5 99999999999999999999999999999999999999",
        "a number too large",
    ),
    (b"5 2 x", "not a number"),
    (b"5 2 # the line", "not a number"),
    (b"5 2 1#", "not a number"),
    (b"5 2 1.0", "not a number"),
    (b"5 2 -1", "a sign"),
    (b"5 2 +", "a sign"),
    (b"5 2 \xef\xbb\xbf1", "a byte order mark"),
    (b"5 2 65536", "a number too large"),
    (b"5 2 4294967297", "a number too large"),
    (b"5 2 1 7", "a word too many"),
    (b"5 2 2 2", "a word too many"),
    (b"5 2 1 # the line", "a word too many"),
    (b"5 2 3 x", "a word too many"),
    // Of two faults the first.
    (b"5 -2 x", "a sign"),
    (b"5 x 65536", "not a number"),
    (b"65536 2 x", "a number too large"),
    (b"5 2 x 7", "not a number"),
];

/// Words of a line that should be `number first last`, and what is wrong with them.
const WRONG_CIRCUITS: [(&[u8], &str); 30] = [
    (b"10", "a number missing"),
    (b"10 1", "a number missing"),
    (b"-10 1 3", "a sign"),
    (b"10 -1 3", "a sign"),
    (b"10 1 -3", "a sign"),
    (b"10 1 +3", "a sign"),
    (b"\xef\xbb\xbf10 1 3", "a byte order mark"),
    (b"10 1 \xef\xbb\xbf3", "a byte order mark"),
    (b"ten 1 3", "not a number"),
    (b"10 one 3", "not a number"),
    (b"10 1 three", "not a number"),
    (b"10 1-3", "not a number"),
    (b"10 1 3;", "not a number"),
    (b"10, 1, 3", "not a number"),
    (b"10 1 3\x0c", "not a number"),
    (b"10 1 \xff", "not a number"),
    (b"99999999999x 1 3", "not a number"),
    (b"4294967296 1 3", "a number too large"),
    (b"18446744073709551617 1 3", "a number too large"),
    (b"10 65536 3", "a number too large"),
    (b"10 1 65536", "a number too large"),
    (b"10 1 00000000065536", "a number too large"),
    (b"10 1 3 5", "a word too many"),
    (b"10 1 3 # a comment", "a word too many"),
    (b"10 1 3 -", "a word too many"),
    // Of two faults the first.
    (b"10 65536 -3 x", "a number too large"),
    (b"x -1 3 4", "not a number"),
    (b"-1 x", "a sign"),
    (b"10 x", "not a number"),
    (b"10 \xef\xbb\xbf1", "a byte order mark"),
];

/// What the first line that counts should be.
const HEADER: &str = "(expected: n w, or n w grid)";

/// Texts that are wrong, and the line that says so.
pub fn wrong_texts() -> Vec<(Vec<u8>, String)> {
    let mut texts = Vec::new();
    // Nothing where the header should be, on the line behind the last.
    for (text, line) in [("", 1), ("\n", 2), (" \r\n\t\n", 3), ("# 5 2\n\n# 5 2", 4)] {
        let told = format!("line {line}: a number missing {HEADER}\n");
        texts.push((text.as_bytes().to_vec(), told));
    }
    for (words, fault) in WRONG_HEADERS {
        for (before, after, line) in [("", "", 1), ("\n# x\n \t", "\n10 1 3\nx\n", 3)] {
            let told = format!("line {line}: {fault} {HEADER}\n");
            texts.push(([before.as_bytes(), words, after.as_bytes()].concat(), told));
        }
    }
    for (words, fault) in WRONG_CIRCUITS {
        for (before, after, line) in [
            ("5 2\n", "", 2),
            ("5 2\n10 1 3\n\n# x\r\n20 2 5\r\n", "\n30 1 2\n-\n", 6),
            ("# x\n\n5 2\n\n\n 10 1 3\n\t", "\r\n", 7),
        ] {
            let told = format!("line {line}: {fault} (expected: number first last)\n");
            texts.push(([before.as_bytes(), words, after.as_bytes()].concat(), told));
        }
    }
    let (text, line) = far_down("5 2\n10 1 -3\n");
    let told = format!("line {}: a sign (expected: number first last)\n", line + 1);
    texts.push((text, told));
    texts.extend(too_many());
    let too_long = "a text of more than 1048576 bytes\n".to_owned();
    texts.push((
        padded(&text_of((5, 2), &LISTING), MOST_BYTES + 1),
        too_long.clone(),
    ));
    texts.push((vec![b'\n'; MOST_BYTES + 1], too_long.clone()));
    texts.push((padded("5 2 x\n", 3 * MOST_BYTES), too_long));
    texts
}

/// Texts with more circuits than are taken.
fn too_many() -> Vec<(Vec<u8>, String)> {
    let text = text_of((1, 1), &on_link_1(2049));
    let [one, three] = [2050, 2053].map(|line| format!("line {line}: more than 2048 circuits\n"));
    let wrong = "line 2050: not a number (expected: number first last)\n";
    vec![
        (text.clone().into_bytes(), one.clone()),
        (text.trim_end().as_bytes().to_vec(), one.clone()),
        (text_of((1, 1), &on_link_1(5000)).into_bytes(), one),
        (format!("# x\n\n\n{text}").into_bytes(), three),
        (
            text.replace("\n2049 ", "\nx ").into_bytes(),
            wrong.to_owned(),
        ),
    ]
}
