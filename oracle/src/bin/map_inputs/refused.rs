// Maps that are refused, M,1 to M,5: each refusal by itself, and with more that is wrong behind it and must not show.
use crate::folder::Folder;
use crate::input::{Input, joined_lines, lengths, plain};
use crate::shared::grids::{FAULTS, spoil};
use crate::shared::random::Random;

// Lengths below 4, also where there are too many points.
const SHORT: [&[u64]; 12] = [
    &[0],
    &[1],
    &[2],
    &[3],
    &[3, 4],
    &[4, 3],
    &[0, 0, 0],
    &[4, 4, 3],
    &[4, 3, 99_999_999],
    &[99_999_999, 0],
    &[4, 4, 4, 3],
    &[99_999_999, 99_999_999, 99_999_999, 3],
];

// More than 512 points, also where the product is 0 or small in 32 or 64 bits.
const LARGE: [&[u64]; 18] = [
    &[513],
    &[1024],
    &[65_536],
    &[99_999_999],
    &[19, 27],
    &[4, 129],
    &[65_536, 65_536],
    &[65_537, 65_536],
    &[8, 8, 9],
    &[9, 9, 9],
    &[4_194_304, 4_194_304, 1_048_576],
    &[16_777_216, 16_777_216, 65_536],
    &[4, 4, 4, 9],
    &[5, 5, 5, 5],
    &[9, 9, 9, 9],
    &[65_536, 65_536, 65_536, 65_536],
    &[16_777_216, 16_777_216, 65_536, 4],
    &[99_999_999, 99_999_999, 99_999_999, 99_999_999],
];

pub fn add(folder: &mut Folder, random: &mut Random) {
    axis_counts(folder, random);
    lengths_of(folder, random, "M,2", "short axis", &SHORT);
    lengths_of(folder, random, "M,3", "too many points", &LARGE);
    steps(folder, random);
    knots(folder, random);
    five_and_more(folder, random);
}

// Line 1 alone, with or without its newline, or with what must not be read behind it.
fn behind(random: &mut Random, turn: usize, head: &str) -> Vec<u8> {
    let more = match turn % 5 {
        0 => b"\n".to_vec(),
        1 => Vec::new(),
        2 => b"\nx\n\n".to_vec(),
        3 => b"\n\n".to_vec(),
        _ => [b"\n", &plain(random, 1).text()[..]].concat(),
    };
    [head.as_bytes(), &more].concat()
}

fn head(random: &mut Random, count: &str, dims: &[u64]) -> String {
    let dims: String = dims.iter().map(|n| format!(",{n}")).collect();
    format!("{},{},{count}{dims}", random.pick(&['E', 'R']), random.below(2))
}

// M,1: no axes, or more than four, also with short axes and too many points.
fn axis_counts(folder: &mut Folder, random: &mut Random) {
    let counts = [0, 0, 0, 5, 5, 5, 5, 5, 6, 7, 8, 9, 10, 16, 100, 256, 260, 4096];
    let forms = [(1, 0), (2, 0), (8, 0), (1, 4), (8, 4), (1, 0), (1, 3), (1, 99_999_999)];
    for (turn, &count) in counts.iter().enumerate() {
        let (digits, length) = forms.get(turn).copied().unwrap_or((1, 4));
        let head = head(random, &format!("{count:0digits$}"), &vec![length; count]);
        let text = behind(random, turn, &head);
        folder.put("M,1, axis count", "M,1", &text);
    }
    let longest = format!("E,0,016379{}", ",4".repeat(16_379));
    assert_eq!(longest.len(), 32_768);
    folder.put("M,1, as long as can be", "M,1", longest.as_bytes());
}

fn lengths_of(folder: &mut Folder, random: &mut Random, last: &str, class: &str, all: &[&[u64]]) {
    for (turn, dims) in all.iter().enumerate() {
        let head = head(random, &dims.len().to_string(), dims);
        let text = behind(random, turn, &head);
        folder.put(&format!("{last}, {class}"), last, &text);
    }
}

// M,5: a step that is not above zero, on each axis.
fn steps(folder: &mut Folder, random: &mut Random) {
    let bad = [0.0, -0.0, -1.0, -5e-324, f64::NAN, -f64::NAN, f64::NEG_INFINITY, f64::MIN];
    let mut turn = 0;
    for count in 1..=4 {
        for axis in 0..count {
            for _ in 0..2 {
                let mut input = bad_map(random, true, count);
                input.grid[count + axis] = bad[turn % bad.len()];
                folder.put("M,5, step", "M,5", &input.text());
                turn += 1;
            }
        }
    }
}

// M,5: knots that do not rise, on each axis.
fn knots(folder: &mut Folder, random: &mut Random) {
    let mut turn = 0;
    for count in 1..=4 {
        for axis in 0..count {
            for _ in 0..3 {
                let mut input = bad_map(random, false, count);
                let start = input.dims[..axis].iter().sum::<u64>() as usize;
                let last = input.dims[axis] as usize - 1;
                let at = [1, last, random.between(1, last as u64) as usize][turn % 3];
                let knots = &mut input.grid[start..=start + last];
                spoil(random, knots, FAULTS[turn % FAULTS.len()], at);
                folder.put("M,5, knots", "M,5", &input.text());
                turn += 1;
            }
        }
    }
}

// A map whose grid is to be spoilt, with queries or without.
fn bad_map(random: &mut Random, regular: bool, count: usize) -> Input {
    let linear = random.below(2) == 0;
    let dims = lengths(random, count);
    let mut input = Input::new(random, regular, linear, &dims, "ordinary", "ordinary");
    let n = random.below(3) as usize;
    input.ask(random, n);
    input
}

// A bad grid and a bad line: line 3 comes before it, a query after it.
fn five_and_more(folder: &mut Folder, random: &mut Random) {
    for regular in [true, false] {
        for (from, last) in [(2, "X,3"), (3, "M,5"), (4, "M,5")] {
            for bad in [&b""[..], b"x", b"3FF0000000000000", b" "] {
                let mut input = bad_map(random, regular, 1);
                input.ask(random, 2);
                let at = input.grid.len() - 1;
                input.grid[at] = if regular { 0.0 } else { input.grid[at - 1] };
                let mut lines = input.lines();
                lines[from] = bad.to_vec();
                folder.put(&format!("{last}, with a bad grid and a bad line"), last, &joined_lines(&lines));
            }
        }
        let mut input = bad_map(random, regular, 1);
        let at = input.grid.len() - 1;
        input.grid[at] = f64::NAN;
        let text = joined_lines(&input.lines()[..2]);
        folder.put("X,3, with a bad grid and no line 3", "X,3", &text);
    }
}
