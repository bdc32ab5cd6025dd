// The words of a list, the numbers of the Rust's answers, and lengths that are not to be looked at.
use super::random::Random;

// The most words that may follow a record's first two: the replaying programs read no more.
const MOST_WORDS: usize = 3584;

// The one NaN that is written for every NaN that the Rust answers: which one it is depends on the machine.
const NAN: u64 = 0x7ff8_0000_0000_0000;

// A record is put at the end of the text: its kind, how many words follow, and these words.
pub fn put_record(text: &mut Vec<u8>, class: &str, kind: u64, words: &[u64]) {
    assert!(words.len() <= MOST_WORDS, "{class}: too long a record");
    let all = [kind, words.len() as u64].into_iter().chain(words.iter().copied());
    let line: Vec<String> = all.map(|w| format!("{w:016x}")).collect();
    text.extend(line.join(" ").bytes());
    text.push(b'\n');
}

// The word for a float that the Rust answers.
pub fn written(x: f64) -> u64 {
    if x.is_nan() { NAN } else { x.to_bits() }
}

// Whether two floats have the same bits, any NaN for any NaN.
pub fn same_float(a: f64, b: f64) -> bool {
    written(a) == written(b)
}

pub fn same(a: &[f64], b: &[f64]) -> bool {
    a.len() == b.len() && a.iter().zip(b).all(|(&x, &y)| same_float(x, y))
}

// The words for floats that it is given: they keep their bits.
pub fn given(xs: &[f64]) -> impl Iterator<Item = u64> {
    xs.iter().map(|x| x.to_bits())
}

// The number of the Rust's answer.
pub fn number<T>(result: &Result<T, &'static str>) -> u64 {
    match result {
        Ok(_) => 0,
        Err("Dimension mismatch") => 2,
        Err("Scratch buffer is too small") => 4,
        Err("All grids must be monotonically increasing") => 5,
        Err("Unrepresentable coordinate value") => 6,
        Err(text) => panic!("no number for: {text}"),
    }
}

// Four lengths that are not to be looked at.
pub fn junk(random: &mut Random) -> [u64; 4] {
    std::array::from_fn(|_| random.pick(&[0, 1, 3, 4, 9, 1 << 24, 1 << 63, u64::MAX]))
}
