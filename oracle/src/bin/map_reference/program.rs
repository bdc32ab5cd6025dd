// The map program on the bytes of an input.
use crate::fitted;
use crate::text::{self, Head, lines};

// The longest input that is read.
pub const MOST_BYTES: usize = 32_768;

// What the program prints.
pub fn program(input: &[u8]) -> String {
    if input.len() > MOST_BYTES {
        return "X,0\n".to_string();
    }
    let lines = lines(input);
    let Some(head) = lines.first().and_then(|line| Head::read(line)) else {
        return "X,1\n".to_string();
    };
    if head.refusal() != 0 {
        return format!("M,{}\n", head.refusal());
    }
    let Some(grid) = lines.get(1).and_then(|line| text::floats(line, head.grid_length())) else {
        return "X,2\n".to_string();
    };
    let Some(samples) = lines.get(2).and_then(|line| text::floats(line, head.points() as usize)) else {
        return "X,3\n".to_string();
    };
    fitted::answers(&head, &grid, &samples, &lines[3..])
}

#[cfg(test)]
mod tests {
    use super::program;

    const LINES: [&str; 4] = [
        "E,0,1,4",
        "0000000000000000,3ff0000000000000",
        "0000000000000000,0000000000000000,0000000000000000,0000000000000000",
        "3ff0000000000000",
    ];

    // Lines as the program reads them.
    fn printed(lines: &[&str]) -> String {
        program(lines.iter().map(|line| line.to_string() + "\n").collect::<String>().as_bytes())
    }

    #[test]
    fn the_papers_example() {
        let wanted = "M,0\nV,0,0000000000000000,0000000000000000\nT,1,0\n";
        assert_eq!(printed(&LINES), wanted);
        assert_eq!(program(LINES.join("\n").as_bytes()), wanted);
    }

    #[test]
    fn lines_that_are_missing_or_empty() {
        assert_eq!(printed(&[]), "X,1\n");
        for n in 1..3 {
            assert_eq!(printed(&LINES[..n]), format!("X,{}\n", n + 1));
        }
        assert_eq!(printed(&LINES[..3]), "M,0\nT,0,0\n");
        assert_eq!(printed(&[LINES[0], LINES[1], LINES[2], ""]), "M,0\nX,4\n");
        assert_eq!(program(b"\n"), "X,1\n");
    }

    #[test]
    fn line_1_is_read_whole() {
        assert_eq!(program(b"E,0,5,4,4,4,4,x"), "X,1\n");
        assert_eq!(program(b"E,0,5,4,4,4,4,4"), "M,1\n");
        assert_eq!(program(b"R,1,0"), "M,1\n");
        assert_eq!(program(b"R,1,0,"), "X,1\n");
        assert_eq!(program(b"R,1,2,3,99999999"), "M,2\n");
        assert_eq!(program(b"E,0,4,65536,65536,65536,65536"), "M,3\n");
        assert_eq!(program(b"E,0,1,513"), "M,3\n");
        assert_eq!(program(b"E,0,1,512"), "X,2\n");
        assert_eq!(program(b"E,0,1,000000512"), "X,1\n");
    }

    #[test]
    fn length_of_the_input() {
        assert_eq!(program(&[b'0'; 32_768]), "X,1\n");
        assert_eq!(program(&[b'0'; 32_769]), "X,0\n");
    }

    #[test]
    fn steps_after_line_3_and_before_any_query() {
        let step = "0000000000000000,8000000000000000";
        assert_eq!(printed(&[LINES[0], step, "x"]), "X,3\n");
        assert_eq!(printed(&[LINES[0], step, LINES[2], "x"]), "M,5\n");
    }

    // Regular, start 0, step 1, 4 points: -0.5, 0, 3, NaN, -2^63. Two are outside, two refused.
    #[test]
    fn places_and_refused_queries_on_a_regular_map() {
        let queries =
            ["bfe0000000000000", "0000000000000000", "4008000000000000", "7ff8000000000000", "c3e0000000000000"];
        let out = printed(&[&LINES[..3], &queries[..]].concat());
        let starts: Vec<&str> = out.lines().map(|line| &line[..3]).collect();
        assert_eq!(starts, ["M,0", "V,0", "V,0", "V,0", "V,6", "V,6", "T,5"]);
        assert!(out.ends_with("T,5,2\n"), "{out}");
    }

    // Knots 0, 1, 2, 3: at 0 outside, at 3 inside; a NaN is outside too.
    #[test]
    fn places_on_a_rectilinear_map() {
        let knots = "0000000000000000,3ff0000000000000,4000000000000000,4008000000000000";
        let out = printed(&["R,0,1,4", knots, LINES[2], "0000000000000000", "4008000000000000", "fff8000000000001"]);
        assert!(out.ends_with("V,0,7ff8000000000000,7ff8000000000000\nT,3,2\n"), "{out}");
    }

    #[test]
    fn an_unreadable_query_ends_the_run() {
        let out = printed(&[&LINES[..], &["3FF0000000000000", LINES[3]]].concat());
        assert_eq!(out, "M,0\nV,0,0000000000000000,0000000000000000\nX,5\n");
    }
}
