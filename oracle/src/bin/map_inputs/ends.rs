// How an input ends, how its lines are parted, and how long it is.
use crate::exact::exactly;
use crate::folder::Folder;
use crate::input::{joined_lines, plain};
use crate::shared::random::Random;

// The longest input that is read.
const MOST: usize = 32_768;

pub fn add(folder: &mut Folder, random: &mut Random) {
    missing_lines(folder, random);
    final_newlines(folder, random);
    behind_the_end(folder, random);
    parted_otherwise(folder, random);
    longest(folder, random);
    too_long(folder, random);
}

// Inputs that end after no, one, two or three lines, with and without the newline.
fn missing_lines(folder: &mut Folder, random: &mut Random) {
    folder.put("X,1, nothing", "X,1", b"");
    folder.put("X,1, a newline", "X,1", b"\n");
    for count in 1..=4 {
        let lines = plain(random, count).lines();
        for (n, last) in [(1, "X,2"), (2, "X,3"), (3, "T,0")] {
            let text = joined_lines(&lines[..n]);
            folder.put(&format!("{last}, {n} lines"), last, &text);
            folder.put(&format!("{last}, {n} lines, no final newline"), last, &text[..text.len() - 1]);
        }
    }
}

// No final newline, which may lack, and one too many.
fn final_newlines(folder: &mut Folder, random: &mut Random) {
    for count in 1..=4 {
        let input = plain(random, count);
        let (text, queries) = (input.text(), input.queries.len());
        folder.put("no final newline", &format!("T,{queries}"), &text[..text.len() - 1]);
        folder.put("X, two final newlines", &format!("X,{}", queries + 4), &[&text[..], b"\n"].concat());
        let text = joined_lines(&input.lines()[..3]);
        folder.put("X, two final newlines, no queries", "X,4", &[&text[..], b"\n"].concat());
    }
}

// Text after the last newline is a line.
fn behind_the_end(folder: &mut Folder, random: &mut Random) {
    for more in [&b"x"[..], b" ", b"\r", b"\0", b"0", b",", b"T,0,0", b"# end", b"\x1a", b"3ff000000000000"] {
        let count = random.between(1, 4) as usize;
        let input = plain(random, count);
        let last = format!("X,{}", input.queries.len() + 4);
        folder.put("X, text after the last newline", &last, &[&input.text()[..], more].concat());
    }
}

// CR before or in place of the newline, empty lines between, lines joined, cut in two or swapped.
fn parted_otherwise(folder: &mut Folder, random: &mut Random) {
    for count in 2..=3 {
        let lines = plain(random, count).lines();
        folder.put("X,1, CR and newline", "X,1", &lines.join(&b"\r\n"[..]));
        folder.put("X,1, CR for newline", "X,1", &lines.join(&b'\r'));
        folder.put("X,2, empty lines between", "X,2", &lines.join(&b"\n\n"[..]));
        folder.put("X,1, empty line in front", "X,1", &[b"\n", &joined_lines(&lines)[..]].concat());
        folder.put("X,1, lines joined by commas", "X,1", &lines.join(&b','));
        let mut cut = lines.clone();
        cut[2][16] = b'\n';
        folder.put("X,3, samples on two lines", "X,3", &joined_lines(&cut));
        let mut swapped = lines.clone();
        swapped.swap(1, 2);
        folder.put("X,2, lines 2 and 3 swapped", "X,2", &joined_lines(&swapped));
        let mut joined = lines.clone();
        let query = joined.remove(4);
        joined[3].extend([b",", &query[..]].concat());
        folder.put("X,4, two queries on a line", "X,4", &joined_lines(&joined));
    }
}

// As long as can be, and one byte less, with and without the final newline.
fn longest(folder: &mut Folder, random: &mut Random) {
    for regular in [true, false] {
        for count in 1..=if regular { 3 } else { 4 } {
            let (text, queries) = exactly(random, regular, count, MOST);
            folder.put("32768 bytes", &format!("T,{queries}"), &text);
            let mut bad = text.clone();
            bad[MOST - 2] = b'F';
            folder.put("X, 32768 bytes, the last digit wrong", &format!("X,{}", queries + 3), &bad);
            let (text, queries) = exactly(random, regular, count, MOST + 1);
            folder.put("32768 bytes, no final newline", &format!("T,{queries}"), &text[..MOST]);
            folder.put("X,0, one byte more, a newline", "X,0", &text);
            let (text, queries) = exactly(random, regular, count, MOST + 5);
            folder.put("X, 32768 bytes, cut in a query", &format!("X,{}", queries + 3), &text[..MOST]);
        }
        let (text, queries) = exactly(random, regular, 2, MOST - 1);
        folder.put("32767 bytes", &format!("T,{queries}"), &text);
    }
    for byte in [b'0', b'\n', b',', 0, 0xff] {
        folder.put("X,1, 32768 bytes of one kind", "X,1", &[byte; MOST]);
        folder.put("X,0, 32769 bytes of one kind", "X,0", &[byte; MOST + 1]);
    }
}

// More than can be read: maps with too many queries, and lines that are refused or wrong before that.
fn too_long(folder: &mut Folder, random: &mut Random) {
    for bytes in [MOST + 1, MOST + 2, 33_000, 40_000, 65_535, 65_536, 65_537, 98_304, 131_072, 1_000_000] {
        let (text, _) = exactly(random, bytes % 2 == 0, 2, bytes);
        folder.put("X,0, too long, all of it right", "X,0", &text);
    }
    for head in ["x\n", "\n", "E,0,0\n", "E,0,5,4,4,4,4,4\n", "R,0,1,3\n", "R,0,1,513\n", "E,0,1,4\nx\n"] {
        let bytes = random.pick(&[MOST + 1, 40_000, 65_536 + head.len()]);
        let mut text = head.as_bytes().to_vec();
        text.resize(bytes, b'0');
        folder.put("X,0, too long, and wrong before that", "X,0", &text);
    }
    let mut text = plain(random, 2).text();
    text.resize(MOST + 1, b'\n');
    folder.put("X,0, too long, newlines at the end", "X,0", &text);
}
