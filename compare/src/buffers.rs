// Buffers that a call of the library writes: what they hold before it, and cells on both sides that it must not touch.

const GUARDS: usize = 16;

pub trait Cell: Copy {
    const GUARD: Self;
    fn bits(self) -> u64;
}

impl Cell for f64 {
    // no arithmetic makes this NaN
    const GUARD: f64 = f64::from_bits(0x7ff0_dead_beef_cafe);
    fn bits(self) -> u64 {
        self.to_bits()
    }
}

impl Cell for u8 {
    const GUARD: u8 = 0xa7;
    fn bits(self) -> u64 {
        u64::from(self)
    }
}

impl Cell for usize {
    const GUARD: usize = 0xdead_beef_cafe_f00d;
    fn bits(self) -> u64 {
        self as u64
    }
}

pub struct Guarded<T> {
    cells: Vec<T>,
    before: fn(usize) -> T,
}

impl<T: Cell> Guarded<T> {
    pub fn new(n: usize, before: fn(usize) -> T) -> Guarded<T> {
        let inside = (0..n).map(before);
        let cells = std::iter::repeat_n(T::GUARD, GUARDS).chain(inside).chain(std::iter::repeat_n(T::GUARD, GUARDS));
        Guarded { cells: cells.collect(), before }
    }

    // A buffer that begins with other cells than a pattern.
    pub fn holding(cells: &[T], before: fn(usize) -> T) -> Guarded<T> {
        let mut out = Guarded::new(cells.len(), before);
        out.lent().copy_from_slice(cells);
        out
    }

    pub fn lent(&mut self) -> &mut [T] {
        let end = self.cells.len() - GUARDS;
        &mut self.cells[GUARDS..end]
    }

    pub fn inside(&self) -> &[T] {
        &self.cells[GUARDS..self.cells.len() - GUARDS]
    }

    pub fn before(&self, i: usize) -> T {
        (self.before)(i)
    }

    pub fn first_touched(&self, from: usize) -> Option<usize> {
        let inside = self.inside();
        (from..inside.len()).find(|&i| inside[i].bits() != self.before(i).bits())
    }

    pub fn guards_hold(&self) -> bool {
        let (low, high) = (&self.cells[..GUARDS], &self.cells[self.cells.len() - GUARDS..]);
        low.iter().chain(high).all(|cell| cell.bits() == T::GUARD.bits())
    }
}

// What coefficients hold before a call, scratch, a ledger, outputs and answers of a list.
pub fn coefs(n: usize) -> Guarded<f64> {
    Guarded::new(n, |i| i as f64 + 0.5)
}

pub fn scratch(n: usize) -> Guarded<f64> {
    Guarded::new(n, |i| -(i as f64) - 0.25)
}

pub fn ledger(n: usize) -> Guarded<u8> {
    Guarded::new(n, |_| 170)
}

pub fn answers(n: usize) -> Guarded<u8> {
    Guarded::new(n, |i| 100 + (i % 100) as u8)
}
