// Whole fits, building from samples, and begin: the calls that are lent the same things.
use crate::buffers;
use crate::case::Case;
use crate::counts::Counts;
use crate::difference::{Outcome, bits, floats, guards, numbers, untouched};
use crate::draw::{any_good, most, spoilt};
use crate::shared::papers::{Checks, Lent};
use crate::shared::random::Random;
use crate::steps::refused_list;
use crate::subject::{Buffers, Subject, Wanted};

pub struct FitCase {
    pub subject: Subject,
}

impl FitCase {
    pub fn draw(random: &mut Random) -> FitCase {
        if random.below(4) == 0 {
            return FitCase { subject: spoilt(random) };
        }
        let most = most(random);
        FitCase { subject: any_good(random, most) }
    }
}

impl Case for FitCase {
    fn lent(&self) -> Vec<&[f64]> {
        self.subject.lent()
    }

    fn show(&self) {
        self.subject.show();
    }

    fn compare(&self, counts: &mut Counts) -> Outcome {
        whole(&self.subject, counts)?;
        if !self.subject.fit.is_rectilinear() {
            built(&self.subject, counts)?;
        }
        begun(&self.subject, counts)
    }
}

// A whole fit. The coefficients are handed back.
pub fn whole(subject: &Subject, counts: &mut Counts) -> Result<Vec<f64>, crate::difference::Difference> {
    let call = &subject.fit.call;
    let number = call.checks().first();
    let wanted = subject.wanted(number, || call.answer(), number == 0);
    let mut buffers = Buffers::new(call.coefs, call.scratch);
    let got = subject.map().fit(&call.samples, buffers.coefs.lent(), buffers.scratch.lent());
    buffers.judge("fit", &wanted, got)?;
    subject.count(counts, "fit", number);
    if number == 0 {
        subject.count_classes(counts);
    }
    let Some((coefs, scratch)) = wanted.written else { return Ok(Vec::new()) };
    counts.outputs(&coefs);
    counts.outputs(&scratch);
    Ok(coefs)
}

// Building a regular map from samples: where a step is refused both buffers are written.
pub fn built(subject: &Subject, counts: &mut Counts) -> Outcome {
    let call = &subject.fit.call;
    let grid = Some(Lent::Regular(&subject.regular));
    let checks = Checks { grid, ..call.checks() };
    let number = checks.first_with_steps_last();
    let wanted = if call.can_ask() && subject.regular.len() != 2 * call.count as usize {
        Wanted::refused(number)
    } else {
        subject.wanted(number, || call.built(&subject.regular), matches!(number, 0 | 5))
    };
    let mut buffers = Buffers::new(call.coefs, call.scratch);
    let got = subject.map().from_values(&call.samples, buffers.coefs.lent(), buffers.scratch.lent());
    buffers.judge("from_values", &wanted, got)?;
    subject.count(counts, "from_values", number);
    Ok(())
}

// Begin: it copies the samples, zeroes the ledger, and is lent the length of scratch alone.
fn begun(subject: &Subject, counts: &mut Counts) -> Outcome {
    let (fit, call) = (&subject.fit, &subject.fit.call);
    let number = fit.begin();
    let mut coefs = buffers::coefs(call.coefs);
    let mut ledger = buffers::ledger(fit.ledger);
    let got = subject.map().begin(&call.samples, coefs.lent(), ledger.lent(), call.scratch);
    numbers("begin", number, u64::from(got))?;
    subject.count(counts, "begin", number);
    if number != 0 {
        untouched("begin, coefficients", 0, &coefs)?;
        untouched("begin, ledger", 0, &ledger)?;
        return refused_list(subject, number, counts);
    }
    floats("begin, coefficients", &call.samples, coefs.inside())?;
    bits("begin, ledger", &vec![0; fit.ledger], ledger.inside())?;
    guards("begin, coefficients", &coefs)?;
    guards("begin, ledger", &ledger)
}
