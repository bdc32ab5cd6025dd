// What the scope's section 'The map program' says of what is printed: a function for each sentence, which stands above it.
use crate::input::Input;
use crate::list::List;
use crate::maps::{
    by_place, even, even_of, even_two, first_lines, uneven, uneven_two, with, with_line, with_line_before,
};
use crate::shared::axis::TWO_63;
use crate::shared::random::Random;

pub fn add(list: &mut List, random: &mut Random) {
    nans(list);
    refused_maps(list);
    values(list, random);
    refused_queries(list);
    totals(list);
    points(list, random);
    in_order(list);
    no_more(list);
    unreadable(list);
}

// "every NaN is printed as 7ff8000000000000"
fn nans(list: &mut List) {
    for (name, bits) in [("quiet", 0x7ff8_0000_0000_0001), ("signalling", 0x7ff0_0000_0000_0001)] {
        let map = with(even(&[0.5, 1.5]), |input| input.samples[1] = f64::from_bits(bits));
        list.put(&format!("nan_{name}_sample"), "T,2,0", &map.text());
    }
    let map = uneven(&[f64::from_bits(0xfff8_0000_0000_0001)]);
    list.put("nan_coordinate_of_a_rectilinear_map", "T,1,1", &map.text());
    let map = with(even(&[0.5, 2.5]), |input| input.samples[2] = f64::INFINITY);
    list.put("nan_of_an_infinite_sample", "T,2,0", &map.text());
}

// "It prints `M,` and the refusal of fitting or building, or 0"
fn refused_maps(list: &mut List) {
    let steps = [("zero", 0.0), ("minus_zero", -0.0), ("negative", -1.0), ("nan", f64::NAN)];
    for (name, step) in steps {
        let map = with(even(&[1.0]), |input| input.grid[1] = step);
        list.put(&format!("M_step_{name}"), "M,5", &map.text());
    }
    let map = with(even_two(&[1.0, 11.0]), |input| input.grid[3] = 0.0);
    list.put("M_step_zero_on_the_second_axis", "M,5", &map.text());
    let map = with(even(&[0.0]), |input| input.grid[1] = f64::INFINITY);
    list.put("M_step_infinite_is_accepted", "T,1,0", &map.text());
    for (name, at, knot) in [("equal", 1, 0.0), ("falling", 2, 0.5), ("nan_first", 0, f64::NAN)] {
        let map = with(uneven(&[1.0]), |input| input.grid[at] = knot);
        list.put(&format!("M_knots_{name}"), "M,5", &map.text());
    }
    let map = with(uneven_two(&[1.0, 11.0]), |input| input.grid[8] = 16.0);
    list.put("M_knots_equal_on_the_second_axis", "M,5", &map.text());
    let map = with(uneven(&[1.5]), |input| (input.grid[0], input.grid[3]) = (f64::NEG_INFINITY, f64::INFINITY));
    list.put("M_knots_with_infinite_ends_are_accepted", "T,1,0", &map.text());
    list.put_all(&[
        ("M_axis_of_3_points", "M,2", "E,0,1,3\n"),
        ("M_fourth_axis_of_3_points", "M,2", "E,1,4,4,4,4,3\n"),
    ]);
}

// "a query a line `V,` with 0, value, gradient by axis": every letter, flag and axis count, every place on every axis
fn values(list: &mut List, random: &mut Random) {
    for regular in [true, false] {
        for linear in [false, true] {
            for count in 1..=4 {
                let dims = &[[5, 6, 0, 0], [5, 4, 0, 0], [4, 5, 4, 0], [4, 4, 4, 4]][count - 1][..count];
                let mut input = Input::new(random, regular, linear, dims, "ordinary", "ordinary");
                by_place(random, &mut input);
                let letter = if regular { 'E' } else { 'R' };
                let name = format!("V_{letter}_flag_{}_axes_{count}", u8::from(linear));
                list.put(&name, &format!("T,{},{}", 5 * count, 2 * count), &input.text());
            }
        }
    }
    for linear in [false, true] {
        let flag = u8::from(linear);
        let map = with(even(&[-2.0, 5.5]), |input| input.linear = linear);
        list.put(&format!("V_regular_outside_with_flag_{flag}"), "T,2,2", &map.text());
        let map = with(uneven(&[-2.0, 5.5]), |input| input.linear = linear);
        list.put(&format!("V_rectilinear_outside_with_flag_{flag}"), "T,2,2", &map.text());
    }
    list.put("V_at_every_point", "T,4,1", &even(&[0.0, 1.0, 2.0, 3.0]).text());
    list.put("V_at_every_knot", "T,4,1", &uneven(&[0.0, 1.0, 2.0, 4.0]).text());
}

// "or the number alone"
fn refused_queries(list: &mut List) {
    list.put("V_refused_nan", "T,1,0", &even(&[f64::NAN]).text());
    list.put("V_refused_at_2_to_63", "T,2,1", &even(&[TWO_63, TWO_63.next_down()]).text());
    list.put("V_refused_at_minus_2_to_63", "T,2,1", &even(&[-TWO_63, (-TWO_63).next_up()]).text());
    let map = with(even(&[1.0]), |input| input.grid[0] = f64::NAN);
    list.put("V_refused_by_a_start_that_is_nan", "T,1,0", &map.text());
    list.put(
        "V_infinite_on_a_rectilinear_map_is_answered",
        "T,2,2",
        &uneven(&[f64::INFINITY, f64::NEG_INFINITY]).text(),
    );
}

// "last `T,` with queries and how many of them are outside: those answered that have an Outside place on some axis"
fn totals(list: &mut List) {
    for (name, last, x) in [
        ("T_regular_minus_one_half_is_outside", "T,1,1", -0.5),
        ("T_regular_first_point_is_inside", "T,1,0", 0.0),
        ("T_regular_minus_zero_is_inside", "T,1,0", -0.0),
        ("T_regular_just_below_the_first_point", "T,1,1", -5e-324),
        ("T_regular_last_point_is_outside", "T,1,1", 3.0),
    ] {
        list.put(name, last, &even(&[x]).text());
    }
    for (name, last, x) in [
        ("T_rectilinear_first_knot_is_outside", "T,1,1", 0.0),
        ("T_rectilinear_just_above_the_first_knot", "T,1,0", 5e-324),
        ("T_rectilinear_last_knot_is_inside", "T,1,0", 4.0),
        ("T_rectilinear_just_above_the_last_knot", "T,1,1", 4.0f64.next_up()),
    ] {
        list.put(name, last, &uneven(&[x]).text());
    }
    list.put("T_outside_on_the_second_axis", "T,1,1", &even_two(&[1.0, 9.0]).text());
    list.put("T_outside_on_both_axes_counts_once", "T,1,1", &uneven_two(&[-1.0, 30.0]).text());
    list.put("T_of_twelve_queries", "T,12,4", &even(&[-1.0, 0.5, 1.5, 4.0, 2.5, 1.0].repeat(2)).text());
}

// "a map of at most 512 points", "More than 512 points: `M,3`."
fn points(list: &mut List, random: &mut Random) {
    list.put("points_512_on_one_axis", "T,3,1", &even_of(512, &[1.5, 510.5, 511.0]).text());
    let mut input = Input::new(random, false, true, &[8, 16, 4], "ordinary", "ordinary");
    by_place(random, &mut input);
    list.put("points_512_on_three_axes", "T,15,6", &input.text());
    list.put("points_513_on_one_axis", "M,3", &even_of(513, &[1.5]).text());
    list.put_all(&[
        ("points_513_on_two_axes", "M,3", "R,0,2,19,27\n"),
        ("points_625_on_four_axes", "M,3", "E,1,4,5,5,5,5\n"),
        ("points_0_in_64_bits", "M,3", "E,0,4,65536,65536,65536,65536\n"),
        ("points_past_64_bits", "M,3", "E,0,3,99999999,99999999,99999999\n"),
    ]);
}

// "Refusals 1 to 3 are printed before line 2 is read, 5 only once line 3 has been read."
fn in_order(list: &mut List) {
    list.put_all(&[
        ("order_M1_before_line_2", "M,1", "E,0,5,4,4,4,4,4\nx\n"),
        ("order_M2_before_line_2", "M,2", "E,0,1,3\nx\n"),
        ("order_M3_before_line_2", "M,3", "E,0,1,513\nx\n"),
        ("order_M1_before_M2", "M,1", "R,0,5,3,3,3,3,3\n"),
        ("order_M2_before_M3", "M,2", "E,0,2,99999999,3\n"),
    ]);
    let bad = with(even(&[1.0]), |input| input.grid[1] = 0.0);
    list.put("order_M5_after_line_3", "M,5", &first_lines(&bad, 3));
    list.put("order_line_3_missing_before_M5", "X,3", &first_lines(&bad, 2));
    list.put("order_line_2_unreadable_before_M5", "X,2", &with_line(&bad, 2, b"x,0000000000000000"));
    let bad = with(uneven(&[1.0]), |input| input.grid[3] = 2.0);
    list.put("order_line_3_too_short_before_M5", "X,3", &with_line(&bad, 3, b"3ff0000000000000"));
}

// "After a refused M no more is printed."
fn no_more(list: &mut List) {
    let map = even(&[1.0, 2.5]);
    list.put("refused_M3_and_a_whole_map", "M,3", &with_line(&map, 1, b"E,0,1,513"));
    let bad = with(map, |input| input.grid[1] = -1.0);
    list.put("refused_M5_and_queries", "M,5", &bad.text());
}

// "A line that is missing among the first three, has a wrong count of fields or a field of another form .. is unreadable: it
// prints `X,` and its number, from 1, and ends the run"
fn unreadable(list: &mut List) {
    let map = even(&[0.5, 1.5, 2.5]);
    list.put("missing_every_line", "X,1", b"");
    list.put("missing_line_2", "X,2", &first_lines(&map, 1));
    list.put("missing_line_3", "X,3", &first_lines(&map, 2));
    list.put("X4_at_the_first_query", "X,4", &with_line_before(&map, 4, b"x"));
    list.put("X6_at_the_last_query", "X,6", &with_line(&map, 6, b"x"));
    list.put("X10_of_two_digits", "X,10", &with_line_before(&even(&[1.0; 6]), 10, b"x"));
    list.put("X100_of_three_digits", "X,100", &with_line_before(&even(&[1.0; 96]), 100, b"x"));
}
