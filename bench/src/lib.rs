// Workloads: the same work for the library and for the Rust, on the same inputs.
pub mod clock;
pub mod evaluation;
pub mod fitting;
pub mod map;
#[allow(dead_code)]
#[path = "../../oracle/src/shared/mod.rs"]
mod shared;
pub mod table;

// The same work twice. Each side has its own outputs.
pub struct Pair {
    pub library: Box<dyn FnMut()>,
    pub rust: Box<dyn FnMut()>,
    // how many calls it is: a figure is what one of them takes
    pub calls: usize,
}

impl Pair {
    // Both sides have done their work once, so that all buffers are warm.
    fn warm(mut library: impl FnMut() + 'static, mut rust: impl FnMut() + 'static) -> Pair {
        library();
        rust();
        Pair { library: Box::new(library), rust: Box::new(rust), calls: 1 }
    }

    fn of(self, calls: usize) -> Pair {
        Pair { calls, ..self }
    }
}

// What is measured.
#[derive(Clone, Copy, PartialEq)]
pub enum Work {
    Fit,
    Values,
    Gradients,
    Lines,
    Line,
    Value,
}

impl Work {
    pub const ALL: [Work; 6] = [Work::Fit, Work::Values, Work::Gradients, Work::Lines, Work::Line, Work::Value];

    pub fn name(self) -> &'static str {
        match self {
            Work::Fit => "fit",
            Work::Values => "value, batch",
            Work::Gradients => "gradient, batch",
            Work::Lines => "line call",
            Work::Line => "line call, put back",
            Work::Value => "single values",
        }
    }

    // The work on a map of one to four axes, with as many queries.
    pub fn pair(self, dims: &[u64], rectilinear: bool, queries: usize) -> Pair {
        match dims.len() {
            1 => self.on::<1>(dims, rectilinear, queries),
            2 => self.on::<2>(dims, rectilinear, queries),
            3 => self.on::<3>(dims, rectilinear, queries),
            4 => self.on::<4>(dims, rectilinear, queries),
            _ => panic!("a map has one to four axes"),
        }
    }

    fn on<const N: usize>(self, dims: &[u64], rectilinear: bool, queries: usize) -> Pair {
        let map = map::Map::<N>::draw(dims, rectilinear);
        match self {
            Work::Fit => fitting::fit(map),
            Work::Lines => fitting::lines(map),
            Work::Line => fitting::line(map),
            Work::Values => evaluation::values(map, queries),
            Work::Gradients => evaluation::gradients(map, queries),
            Work::Value => evaluation::single(map, queries),
        }
    }
}
