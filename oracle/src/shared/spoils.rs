// What can be wrong with a stepwise fit or a fit, check by check.
use super::fit::Fit;
use super::grids::{resize, spoil_any};
use super::random::Random;

// The checks that come after the lengths of the axes, in their order.
#[derive(Clone, Copy, PartialEq, PartialOrd)]
pub enum Check {
    Grid,
    Coefs,
    Ledger,
    Knots,
    Samples,
    Scratch,
}

pub const CHECKS: [Check; 6] = [Check::Grid, Check::Coefs, Check::Ledger, Check::Knots, Check::Samples, Check::Scratch];

// Another length of a buffer that has to have n cells.
pub fn another(random: &mut Random, n: usize) -> usize {
    let length = random.pick(&[n.saturating_sub(1), n + 1, 0, 1, 2 * n]);
    if length == n { n + 1 } else { length }
}

pub fn spoil_check(random: &mut Random, fit: &mut Fit, check: Check) {
    let call = &mut fit.call;
    match (check, &mut call.grid) {
        (Check::Grid, Some(grid)) => resize(random, &call.dims, grid),
        (Check::Knots, Some(grid)) => spoil_any(random, call.count, &call.dims, grid),
        (Check::Grid | Check::Knots, None) => (),
        (Check::Coefs, _) => call.coefs = another(random, call.coefs),
        (Check::Ledger, _) => fit.ledger = another(random, fit.ledger),
        (Check::Samples, _) => {
            let length = another(random, call.samples.len());
            call.samples.resize(length, -2.25);
        }
        (Check::Scratch, _) => call.scratch = random.pick(&[0, 1, call.scratch / 2, 7]),
    }
}
