// Inputs of an exact number of bytes.
use crate::input::{Input, joined_lines, lengths};
use crate::shared::random::Random;

// An input of exactly this many bytes, all of it right: the decimals of line 1 get leading zeros until it fits. On one axis,
// and on four regular ones, they are too few for some numbers of bytes.
pub fn exactly(random: &mut Random, regular: bool, count: usize, bytes: usize) -> (Vec<u8>, usize) {
    for _ in 0..10_000 {
        let dims = lengths(random, count);
        let linear = random.below(2) == 0;
        let mut input = Input::new(random, regular, linear, &dims, "ordinary", "ordinary");
        let map = input.text().len();
        let fits = |zeros: &usize| (bytes - map - zeros).is_multiple_of(17 * count);
        if let Some(zeros) = (0..=7 * (count + 1)).find(fits) {
            input.ask(random, (bytes - map - zeros) / (17 * count));
            let mut lines = input.lines();
            lines[0] = with_zeros(&input.head(), zeros).into_bytes();
            let text = joined_lines(&lines);
            assert_eq!(text.len(), bytes);
            return (text, input.queries.len());
        }
    }
    panic!("no input of {count} axes has {bytes} bytes");
}

// Leading zeros for the decimals of line 1, up to seven for each.
fn with_zeros(head: &str, mut zeros: usize) -> String {
    let fields = head.split(',').enumerate().map(|(i, field)| {
        let more = if i < 2 { 0 } else { zeros.min(7) };
        zeros -= more;
        "0".repeat(more) + field
    });
    fields.collect::<Vec<_>>().join(",")
}
