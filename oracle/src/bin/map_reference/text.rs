// The text that the map program reads: lines, fields, floats, decimals and line 1.

// The most points of a map.
const MOST_POINTS: u128 = 512;

// The lines of the input: each ends in a newline, which the last one may lack.
pub fn lines(input: &[u8]) -> Vec<&[u8]> {
    let mut lines: Vec<&[u8]> = input.split(|&byte| byte == b'\n').collect();
    if lines.last().is_some_and(|line| line.is_empty()) {
        lines.pop();
    }
    lines
}

fn fields(line: &[u8]) -> Vec<&[u8]> {
    line.split(|&byte| byte == b',').collect()
}

// A float is its 64 bits as 16 lower-case hexadecimal digits.
fn float(field: &[u8]) -> Option<f64> {
    let digits = field.len() == 16 && field.iter().all(|byte| matches!(byte, b'0'..=b'9' | b'a'..=b'f'));
    let text = std::str::from_utf8(field).ok().filter(|_| digits)?;
    u64::from_str_radix(text, 16).ok().map(f64::from_bits)
}

// A decimal has 1 to 8 digits.
fn decimal(field: &[u8]) -> Option<u64> {
    let digits = (1..=8).contains(&field.len()) && field.iter().all(|byte| byte.is_ascii_digit());
    std::str::from_utf8(field).ok().filter(|_| digits)?.parse().ok()
}

// The floats of a line that has n of them and nothing else.
pub fn floats(line: &[u8], n: usize) -> Option<Vec<f64>> {
    let floats: Vec<f64> = fields(line).into_iter().map(float).collect::<Option<_>>()?;
    Some(floats).filter(|floats| floats.len() == n)
}

// Line 1: the letter, the flag, and as many lengths as the axis count says.
pub struct Head {
    pub regular: bool,
    pub linear: bool,
    pub dims: Vec<u64>,
}

impl Head {
    pub fn read(line: &[u8]) -> Option<Head> {
        let fields = fields(line);
        let [letter, flag, count, lengths @ ..] = &fields[..] else { return None };
        let regular = match *letter {
            b"E" => true,
            b"R" => false,
            _ => return None,
        };
        let linear = match *flag {
            b"0" => false,
            b"1" => true,
            _ => return None,
        };
        let dims: Vec<u64> = lengths.iter().map(|field| decimal(field)).collect::<Option<_>>()?;
        Some(Head { regular, linear, dims }).filter(|head| decimal(count) == Some(head.dims.len() as u64))
    }

    // The refusals that are printed before line 2 is read, in their order, or 0.
    pub fn refusal(&self) -> u64 {
        if !(1..=4).contains(&self.dims.len()) {
            1
        } else if self.dims.iter().any(|&n| n < 4) {
            2
        } else if self.points() > MOST_POINTS {
            3
        } else {
            0
        }
    }

    // The number of points. Four lengths of eight digits are far below 128 bits.
    pub fn points(&self) -> u128 {
        self.dims.iter().map(|&n| u128::from(n)).product()
    }

    // How many floats line 2 has: starts then steps, or all knots.
    pub fn grid_length(&self) -> usize {
        if self.regular { 2 * self.dims.len() } else { self.dims.iter().sum::<u64>() as usize }
    }
}
