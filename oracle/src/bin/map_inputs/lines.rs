// Lines of floats in every wrong form: the grid, the samples, and the first, an inner and the last query.
use crate::folder::Folder;
use crate::input::{Input, joined_lines, plain};
use crate::shared::random::Random;

// What can be wrong with one float.
const FIELD: [&str; 20] = [
    "upper-case digit",
    "upper-case digits",
    "15 digits",
    "17 digits",
    "no digits",
    "8 digits",
    "32 digits",
    "0x in front",
    "blank before",
    "blank after",
    "blank within",
    "plus sign",
    "minus sign",
    "letter past f",
    "character beside the digits",
    "tab",
    "zero byte",
    "byte past 127",
    "a decimal",
    "nan",
];

// What can be wrong with a line of floats.
const LINE: [&str; 10] = [
    "one field less",
    "one field more",
    "comma at the end",
    "comma at the start",
    "commas doubled",
    "empty",
    "blank",
    "CR at the end",
    "semicolons",
    "blanks for commas",
];

pub fn add(folder: &mut Folder, random: &mut Random) {
    for fault in FIELD {
        for target in 0..5 {
            one(folder, random, target, fault, |random, line| spoil_field(random, line, fault));
        }
    }
    for fault in LINE {
        for target in 0..5 {
            one(folder, random, target, fault, |_, line| spoil_line(line, fault));
        }
    }
    far_down(folder, random);
}

// One line of an input is spoilt. Every other input that is wrong in its last line lacks the final newline.
fn one(
    folder: &mut Folder,
    random: &mut Random,
    target: usize,
    fault: &str,
    spoil: impl Fn(&mut Random, &[u8]) -> Vec<u8>,
) {
    let count = random.between(2, 3) as usize;
    let mut lines = plain(random, count).lines();
    let last = lines.len() - 1;
    let at = [1, 2, 3, 4, last][target];
    let spoilt = spoil(random, &lines[at]);
    assert_ne!(spoilt, lines[at], "{fault}");
    lines[at] = spoilt;
    let mut text = joined_lines(&lines);
    if at == last && !lines[at].is_empty() && random.below(2) == 0 {
        text.pop();
    }
    folder.put(&format!("X, {fault}"), &format!("X,{}", at + 1), &text);
}

fn spoil_field(random: &mut Random, line: &[u8], fault: &str) -> Vec<u8> {
    let mut fields: Vec<Vec<u8>> = line.split(|&byte| byte == b',').map(<[u8]>::to_vec).collect();
    let at = random.below(fields.len() as u64) as usize;
    let digit = random.below(16) as usize;
    let field = &mut fields[at];
    match fault {
        "upper-case digit" => field[digit] = random.pick(b"ABCDEF"),
        "upper-case digits" => *field = format!("{:016X}", random.bits() | 0xb << 40).into_bytes(),
        "15 digits" => field.truncate(15),
        "17 digits" => field.push(b'0'),
        "no digits" => field.clear(),
        "8 digits" => field.truncate(8),
        "32 digits" => field.extend(b"0000000000000000"),
        "0x in front" => field.splice(0..0, *b"0x").for_each(drop),
        "blank before" => field.insert(0, b' '),
        "blank after" => field.push(b' '),
        "blank within" => field[digit] = b' ',
        "plus sign" => field.insert(0, b'+'),
        "minus sign" => field[0] = b'-',
        "letter past f" => field[digit] = random.pick(b"ghxz"),
        "character beside the digits" => field[digit] = random.pick(b"/:`@G_"),
        "tab" => field.push(b'\t'),
        "zero byte" => field[digit] = 0,
        "byte past 127" => field[digit] |= 0x80,
        "a decimal" => *field = random.pick(&["1.5", "0", "1", "1e3", "0000000000001.50"]).into(),
        "nan" => *field = random.pick(&["nan", "NaN", "inf", "             nan"]).into(),
        _ => panic!("no fault {fault}"),
    }
    fields.join(&b',')
}

fn spoil_line(line: &[u8], fault: &str) -> Vec<u8> {
    let text = String::from_utf8(line.to_vec()).unwrap();
    match fault {
        "one field less" => text[..text.rfind(',').unwrap()].to_string(),
        "one field more" => text + ",3ff0000000000000",
        "comma at the end" => text + ",",
        "comma at the start" => format!(",{text}"),
        "commas doubled" => text.replacen(',', ",,", 1),
        "empty" => String::new(),
        "blank" => " ".to_string(),
        "CR at the end" => text + "\r",
        "semicolons" => text.replace(',', ";"),
        "blanks for commas" => text.replace(',', " "),
        _ => panic!("no fault {fault}"),
    }
    .into_bytes()
}

// An unreadable query far down: its number has two to four digits.
fn far_down(folder: &mut Folder, random: &mut Random) {
    for (regular, at) in [(true, 9), (false, 10), (true, 99), (false, 100), (true, 999), (false, 1000), (true, 1899)] {
        let mut input = Input::new(random, regular, at % 2 == 0, &[4], "ordinary", "ordinary");
        input.ask(random, at);
        let mut lines = input.lines();
        lines[at - 1] = b"3ff0".to_vec();
        folder.put("X, far down", &format!("X,{at}"), &joined_lines(&lines));
    }
}
