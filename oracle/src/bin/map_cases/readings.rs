// The readings of docs/DECISIONS.md, 46: a function for each of them, which stands above it.
use crate::exact::exactly;
use crate::list::List;
use crate::maps::{even, even_two, first_lines, uneven, with, with_line, with_line_before};
use crate::program::MOST_BYTES;
use crate::shared::random::Random;

pub fn add(list: &mut List, random: &mut Random) {
    lengths(list, random);
    empty_lines(list);
    whole_line_1(list);
    one_byte(list);
    leading_zeros(list);
    blanks_and_signs(list);
    five_in_order(list);
    unreadable_query(list);
    refused_query(list);
}

// "too long an input prints `X,0` before anything is looked at, and 32,768 bytes exactly is not too long"
fn lengths(list: &mut List, random: &mut Random) {
    let (text, queries) = exactly(random, false, 4, MOST_BYTES + 1);
    list.put("long_32768_bytes", &format!("T,{queries}"), &text[..MOST_BYTES]);
    list.put("long_32769_bytes", "X,0", &text);
    let head = format!("E,0,016379{}", ",4".repeat(16_379));
    assert_eq!(head.len(), MOST_BYTES);
    list.put("long_32768_bytes_of_line_1", "M,1", head.as_bytes());
    let mut wrong = b"x\n".to_vec();
    wrong.resize(MOST_BYTES + 1, b'\n');
    list.put("long_32769_bytes_and_line_1_unreadable", "X,0", &wrong);
}

// "What follows the last newline is a line only if it is not empty; any other empty line is unreadable."
fn empty_lines(list: &mut List) {
    let map = even(&[1.0, 2.5]);
    list.put("empty_input", "X,1", b"\n");
    for (at, last) in [(1, "X,1"), (2, "X,2"), (3, "X,3"), (5, "X,5"), (6, "X,6")] {
        list.put(&format!("empty_line_{at}"), last, &with_line_before(&map, at, b""));
    }
    list.put("empty_line_4_after_no_queries", "X,4", &[&first_lines(&map, 3)[..], b"\n"].concat());
    for (name, more) in [("blank", " "), ("digit", "0"), ("total", "T,2,0")] {
        list.put(&format!("after_the_last_newline_{name}"), "X,6", &[&map.text()[..], more.as_bytes()].concat());
    }
}

// "Line 1 is read whole before it is refused (`E,0,5,4,4,4,4,x` is `X,1`; with a fifth length it is `M,1`)."
fn whole_line_1(list: &mut List) {
    list.put_all(&[
        ("whole_line_1_fifth_length_unreadable", "X,1", "E,0,5,4,4,4,4,x\n"),
        ("whole_line_1_fifth_length", "M,1", "E,0,5,4,4,4,4,4\n"),
        ("whole_line_1_short_axis_and_unreadable", "X,1", "E,0,2,3,x\n"),
        ("whole_line_1_many_points_and_unreadable", "X,1", "E,0,2,99999999,x\n"),
    ]);
}

// "Letter and flag are one byte"
fn one_byte(list: &mut List) {
    let map = even(&[1.0]);
    for (name, line) in
        [("one_byte_letter_doubled", "EE,0,1,4"), ("one_byte_flag_00", "E,00,1,4"), ("one_byte_flag_10", "E,10,1,4")]
    {
        list.put(name, "X,1", &with_line(&map, 1, line.as_bytes()));
    }
}

// "decimals may have leading zeros"
fn leading_zeros(list: &mut List) {
    list.put("zeros_before_the_axis_count", "T,1,0", &with_line(&uneven(&[1.0]), 1, b"R,0,01,4"));
    list.put("zeros_before_all", "T,1,0", &with_line(&even_two(&[1.0, 11.0]), 1, b"E,0,00000002,00000004,00000005"));
    list.put("zeros_alone", "M,1", b"E,0,00000000\n");
}

// "CR, blanks and signs make a field unreadable."
fn blanks_and_signs(list: &mut List) {
    let map = even(&[1.0]);
    list.put("cr_at_every_line", "X,1", &map.lines().join(&b"\r\n"[..]));
    for (name, at, line) in [
        ("cr_after_line_1", 1, "E,0,1,4\r"),
        ("cr_after_a_query", 4, "3ff0000000000000\r"),
        ("blank_before_the_flag", 1, "E, 0,1,4"),
        ("blank_after_the_length", 1, "E,0,1,4 "),
        ("blank_before_a_float", 2, "0000000000000000, 3ff0000000000000"),
        ("blank_for_a_digit", 4, "3ff000000000000 "),
        ("tab_after_a_query", 4, "3ff0000000000000\t"),
        ("sign_plus_before_the_axis_count", 1, "E,0,+1,4"),
        ("sign_minus_before_the_length", 1, "E,0,1,-4"),
        ("sign_plus_before_a_float", 2, "+0000000000000000,3ff0000000000000"),
        ("sign_minus_for_a_digit", 4, "-3ff000000000000"),
    ] {
        list.put(name, &format!("X,{at}"), &with_line(&map, at, line.as_bytes()));
    }
}

// "`X,3` comes before `M,5`, `M,5` before any query."
fn five_in_order(list: &mut List) {
    for (name, map) in [
        ("regular", with(even(&[1.0]), |input| input.grid[1] = 0.0)),
        ("rectilinear", with(uneven(&[1.0]), |input| input.grid[3] = 2.0)),
    ] {
        list.put(&format!("five_after_X3_{name}"), "X,3", &with_line(&map, 3, b"x"));
        list.put(&format!("five_before_an_unreadable_query_{name}"), "M,5", &with_line(&map, 4, b"x"));
    }
}

// "An unreadable query ends the run: what was printed stays, then `X,`, and no T."
fn unreadable_query(list: &mut List) {
    let map = even(&[0.5, -1.0, 1.5, 2.5]);
    list.put("unreadable_query_after_two_answers", "X,6", &with_line(&map, 6, b"3FF0000000000000"));
    let map = even(&[f64::NAN, 0.5, 1.5]);
    list.put("unreadable_query_after_a_refused_one", "X,5", &with_line(&map, 5, b"x"));
}

// "T counts all query lines read, refused ones too; outside counts answered ones only."
fn refused_query(list: &mut List) {
    list.put("refused_query_is_counted", "T,3,1", &even(&[f64::NAN, -0.5, 0.5]).text());
    list.put("refused_query_is_not_outside", "T,2,1", &even_two(&[-1.0, f64::NAN, -1.0, 11.0]).text());
    list.put("refused_query_beyond_2_to_63_is_not_outside", "T,2,0", &even(&[1e300, -1e300]).text());
}
