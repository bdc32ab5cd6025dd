// What the scope's section 'The map program' says of the input: a function for each sentence, which stands above it.
use crate::list::List;
use crate::maps::{even, even_two, first_lines, uneven, uneven_two, with, with_line, without_newline};

const START_AND_STEP: &str = "0000000000000000,3ff0000000000000";
const ONE: &str = "3ff0000000000000";

pub fn add(list: &mut List) {
    example(list);
    commas(list);
    newlines(list);
    line_1(list);
    line_2(list);
    line_3(list);
    queries(list);
    floats(list);
    decimals(list);
}

fn example(list: &mut List) {
    let input = with(even(&[1.0]), |input| input.samples.fill(0.0));
    list.put("example", "T,1,0", &input.text());
}

// "fields parted by commas, no quoting"
fn commas(list: &mut List) {
    let map = even(&[1.0]);
    list.put("comma_semicolons", "X,1", &with_line(&map, 1, b"E;0;1;4"));
    list.put("comma_quoted_letter", "X,1", &with_line(&map, 1, b"\"E\",0,1,4"));
    list.put("comma_after_the_last_float", "X,2", &with_line(&map, 2, format!("{START_AND_STEP},").as_bytes()));
    let doubled = map.lines()[2].iter().map(|&b| char::from(b)).collect::<String>().replacen(',', ",,", 1);
    list.put("comma_doubled", "X,3", &with_line(&map, 3, doubled.as_bytes()));
}

// "Lines end in a newline, which the last one read may lack."
fn newlines(list: &mut List) {
    let map = even(&[1.0, 2.5]);
    list.put("newline_lacks_after_the_last_query", "T,2,0", without_newline(&map.text()));
    list.put("newline_lacks_after_line_1", "X,2", without_newline(&first_lines(&map, 1)));
    list.put("newline_lacks_after_line_2", "X,3", without_newline(&first_lines(&map, 2)));
    list.put("newline_lacks_after_line_3", "T,0,0", without_newline(&first_lines(&map, 3)));
    list.put("newline_lacks_after_a_refused_line_1", "M,2", b"E,0,1,3");
    let bad = with(map, |input| input.grid[1] = 0.0);
    list.put("newline_lacks_after_line_3_of_a_refused_map", "M,5", without_newline(&first_lines(&bad, 3)));
    list.put(
        "newline_lacks_after_an_unreadable_query",
        "X,5",
        without_newline(&with_line(&even(&[1.0, 2.5]), 5, b"x")),
    );
}

// "Line 1: E (regular) or R, flag 0 or 1, axis count, and as many lengths as that count says, also where it is 0 or above 4."
fn line_1(list: &mut List) {
    list.put_all(&[
        ("head_axis_count_0", "M,1", "E,0,0\n"),
        ("head_axis_count_0_and_a_length", "X,1", "E,0,0,4\n"),
        ("head_axis_count_5", "M,1", "R,1,5,4,4,4,4,4\n"),
        ("head_axis_count_5_and_four_lengths", "X,1", "R,1,5,4,4,4,4\n"),
        ("head_axis_count_2_and_one_length", "X,1", "E,0,2,4\n"),
        ("head_axis_count_1_and_two_lengths", "X,1", "E,0,1,4,4\n"),
        ("head_letter_and_flag_alone", "X,1", "E,0\n"),
    ]);
    let map = even(&[1.0]);
    for (name, line) in [
        ("head_another_letter", "F,0,1,4"),
        ("head_lower_case_letter", "e,0,1,4"),
        ("head_flag_2", "E,2,1,4"),
        ("head_no_length", "E,0,1,"),
    ] {
        list.put(name, "X,1", &with_line(&map, 1, line.as_bytes()));
    }
    list.put("head_R_for_E", "X,2", &with_line(&map, 1, b"R,0,1,4"));
    list.put("head_E_for_R", "X,2", &with_line(&uneven(&[1.0]), 1, b"E,0,1,4"));
}

// "Line 2: starts then steps, or all knots."
fn line_2(list: &mut List) {
    list.put("grid_starts_then_steps", "T,2,0", &even_two(&[1.5, 17.0, 0.0, 10.0]).text());
    list.put("grid_all_knots", "T,2,0", &uneven_two(&[3.0, 19.0, 0.5, 10.5]).text());
    let less = with(even_two(&[1.0, 11.0]), |input| input.grid.truncate(3));
    list.put("grid_one_step_less", "X,2", &less.text());
    let more = with(uneven_two(&[1.0, 11.0]), |input| input.grid.push(100.0));
    list.put("grid_one_knot_more", "X,2", &more.text());
    let first = with(uneven_two(&[1.0, 11.0]), |input| input.grid.truncate(4));
    list.put("grid_knots_of_the_first_axis_only", "X,2", &first.text());
}

// "Line 3: samples."
fn line_3(list: &mut List) {
    let less = with(even_two(&[1.0, 11.0]), |input| input.samples.truncate(19));
    list.put("samples_one_less", "X,3", &less.text());
    let more = with(uneven_two(&[1.0, 11.0]), |input| input.samples.push(0.0));
    list.put("samples_one_more", "X,3", &more.text());
    let mut cut = even(&[1.0]).lines()[2].clone();
    cut[16] = b'\n';
    list.put("samples_on_two_lines", "X,3", &with_line(&even(&[1.0]), 3, &cut));
}

// "Then one query a line."
fn queries(list: &mut List) {
    list.put("query_none", "T,0,0", &even(&[]).text());
    list.put("query_three", "T,3,0", &even(&[0.5, 1.5, 2.5]).text());
    let two = even_two(&[1.0, 11.0, 2.0, 13.0]);
    list.put("query_one_coordinate_less", "X,5", &with_line(&two, 5, ONE.as_bytes()));
    list.put("query_one_coordinate_more", "X,4", &with_line(&two, 4, [ONE; 3].join(",").as_bytes()));
    list.put("query_two_on_a_line", "X,4", &with_line(&even(&[1.0]), 4, [ONE; 2].join(",").as_bytes()));
}

// "Floats are their 64 bits as 16 lower-case hexadecimal digits"
fn floats(list: &mut List) {
    let map = even(&[1.0, 2.5]);
    let upper = |line: &str| line.replace('f', "F").into_bytes();
    list.put("float_upper_case_in_line_2", "X,2", &with_line(&map, 2, &upper(START_AND_STEP)));
    let samples = String::from_utf8(map.lines()[2].clone()).expect("text");
    list.put("float_upper_case_in_line_3", "X,3", &with_line(&map, 3, &upper(&samples)));
    list.put("float_upper_case_in_a_query", "X,5", &with_line(&map, 5, &upper(ONE)));
    for (name, field) in [
        ("float_15_digits", "3ff000000000000"),
        ("float_17_digits", "3ff00000000000000"),
        ("float_letter_g", "3fg0000000000000"),
        ("float_backquote_before_a", "3f`0000000000000"),
        ("float_as_a_decimal", "1.0"),
    ] {
        list.put(name, "X,4", &with_line(&map, 4, field.as_bytes()));
    }
    let small = with(map, |input| input.samples = vec![5e-324, -5e-324, f64::MIN_POSITIVE, -0.0]);
    list.put("float_subnormal_samples_and_minus_zero", "T,2,0", &small.text());
}

// "lengths and counts decimal", "a decimal has 1 to 8 digits"
fn decimals(list: &mut List) {
    let map = even(&[1.0]);
    for (name, last, line) in [
        ("decimal_8_digits", "T,1,0", "E,0,1,00000004"),
        ("decimal_9_digits", "X,1", "E,0,1,000000004"),
        ("decimal_9_digits_of_the_axis_count", "X,1", "E,0,000000001,4"),
        ("decimal_99999999", "M,3", "E,0,1,99999999"),
        ("decimal_100000000", "X,1", "E,0,1,100000000"),
        ("decimal_past_64_bits", "X,1", "E,0,1,18446744073709551620"),
        ("decimal_hexadecimal_digit", "X,1", "E,0,1,a"),
    ] {
        list.put(name, last, &with_line(&map, 1, line.as_bytes()));
    }
}
