// Line 1 in every wrong form, and in unusual right ones, before a map of 4 by 4 points.
use crate::folder::Folder;
use crate::input::{Input, joined_lines};
use crate::shared::random::Random;

// Line 1 as E; every other one is tried as R.
const WRONG: [&[u8]; 84] = [
    b"",
    b" ",
    b",",
    b"E",
    b"E,",
    b"E,0",
    b"E,0,",
    b"E,0,2",
    b"E,0,2,",
    b"E,0,2,4",
    b"E,0,2,4,",
    b"E,0,2,,4",
    b"E,0,2,4,4,",
    b"E,0,2,4,4,4",
    b"E,0,,4,4",
    b"E,,2,4,4",
    b",0,2,4,4",
    b",E,0,2,4,4",
    b"E,0,2,,4,4",
    b"e,0,2,4,4",
    b"r,0,2,4,4",
    b"F,0,2,4,4",
    b"0,0,2,4,4",
    b"EE,0,2,4,4",
    b"ER,0,2,4,4",
    b" E,0,2,4,4",
    b"E ,0,2,4,4",
    b"\"E\",0,2,4,4",
    b"\xef\xbb\xbfE,0,2,4,4",
    b"E,2,2,4,4",
    b"E,00,2,4,4",
    b"E,01,2,4,4",
    b"E,10,2,4,4",
    b"E,+0,2,4,4",
    b"E,-0,2,4,4",
    b"E, 0,2,4,4",
    b"E,0 ,2,4,4",
    b"E,a,2,4,4",
    b"E,0,+2,4,4",
    b"E,0,-2,4,4",
    b"E,0, 2,4,4",
    b"E,0,2 ,4,4",
    b"E,0,2.0,4,4",
    b"E,0,0x2,4,4",
    b"E,0,two,4,4",
    b"E,0,b,4,4",
    b"E,0,000000002,4,4",
    b"E,0,4294967298,4,4",
    b"E,0,18446744073709551618,4,4",
    b"E,0,2,+4,4",
    b"E,0,2,4,-4",
    b"E,0,2,4, 4",
    b"E,0,2,4,4 ",
    b"E,0,2,4,4\t",
    b"E,0,2,4,4\r",
    b"E,0,2,4,4\0",
    b"E,0,2,4,4.0",
    b"E,0,2,4,4e0",
    b"E,0,2,4,:",
    b"E,0,2,4,/",
    b"E,0,2,000000004,4",
    b"E,0,2,4,100000000",
    b"E,0,2,4,4294967300",
    b"E,0,2,4,18446744073709551620",
    b"E,0,2,4;4",
    b"E;0;2;4;4",
    b"E 0 2 4 4",
    b"E,0,0,4",
    b"E,0,0,",
    b"E,0,1,4,4",
    b"E,0,3,4,4",
    b"E,0,5",
    b"E,0,5,4,4,4,4",
    b"E,0,5,4,4,4,4,",
    b"E,0,5,4,4,4,4,x",
    b"E,0,5,4,4,4,4,4,4",
    b"E,0,5,4,4,4,4,000000004",
    b"E,0,256,4,4",
    b"E,0,258,4,4",
    b"E,0,99999999",
    b"E,0,99999999,4,4",
    b"E,0,2,3",
    b"E,0,2,3,x",
    b"M,0",
];

const RIGHT: [&[u8]; 6] = [
    b"E,0,2,4,4",
    b"E,1,02,4,4",
    b"E,0,2,04,0004",
    b"E,1,00000002,00000004,00000004",
    b"E,0,0000002,4,00000004",
    b"E,1,2,000004,4",
];

pub fn add(folder: &mut Folder, random: &mut Random) {
    for (turn, line) in WRONG.iter().enumerate() {
        put(folder, random, "X,1, form of line 1", "X,1", turn, line);
    }
    for (turn, line) in RIGHT.iter().enumerate() {
        put(folder, random, "leading zeros", "T,3", turn, line);
    }
}

// Lines 2 and 3 and the queries are those of the letter.
fn put(folder: &mut Folder, random: &mut Random, class: &str, last: &str, turn: usize, line: &[u8]) {
    let regular = turn % 2 == 0 || line.first() != Some(&b'E');
    let mut input = Input::new(random, regular, false, &[4, 4], "ordinary", "ordinary");
    input.ask(random, 3);
    let mut lines = input.lines();
    lines[0] = line.to_vec();
    if !regular {
        lines[0][0] = b'R';
    }
    folder.put(class, last, &joined_lines(&lines));
}
