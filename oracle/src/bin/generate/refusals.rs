// The refused calls on regular grids: each refusal by itself, and several at once, where the first in the fixed order is the
// answer.
use crate::list::List;
use crate::shared::call::{Call, padded};
use crate::shared::random::Random;
use crate::shared::samples::samples;
use crate::shared::shapes::{LARGE, MOST, large, wrapped};

const SEED: u64 = 0x26_574e_b562 + 1;
const EACH: usize = 140;

pub fn add(list: &mut List) {
    let mut random = Random::new(SEED);
    axis_counts(list, &mut random);
    short_axes(list, &mut random);
    too_many_points(list, &mut random);
    most_points(list, &mut random);
    coefficient_lengths(list, &mut random);
    sample_lengths(list, &mut random);
    scratch_lengths(list, &mut random);
}

// A call that would be accepted.
fn good(random: &mut Random) -> Call {
    let count = random.pick(&[1, 1, 1, 2, 2, 2, 3]);
    let most = [9, 5, 4][count - 1];
    let dims: Vec<u64> = (0..count).map(|_| random.between(4, most)).collect();
    let n: u64 = dims.iter().product();
    let kind = random.pick(&["ordinary", "mixture"]);
    Call {
        count: count as u64,
        dims: padded(random, &dims),
        grid: None,
        samples: samples(random, kind, n as usize),
        coefs: n as usize,
        scratch: 2 * *dims.iter().max().unwrap() as usize,
    }
}

// The call with some of its lengths wrong too. What is wrong later in the fixed order does not show.
fn spoilt(random: &mut Random, mut call: Call) -> Call {
    if random.below(3) == 0 {
        call.coefs = random.pick(&[0, 1, 3, call.coefs + 1, 17]);
    }
    if random.below(3) == 0 {
        shorten_samples(random, &mut call);
    }
    if random.below(3) == 0 {
        call.scratch = random.pick(&[0, 1, 7]);
    }
    call
}

pub fn shorten_samples(random: &mut Random, call: &mut Call) {
    let n = call.samples.len();
    call.samples.truncate(random.pick(&[0, 1, n - 1]));
}

// 1: no axes, or more than four. The Rust has no counterpart.
fn axis_counts(list: &mut List, random: &mut Random) {
    for i in 0..EACH {
        let mut call = good(random);
        call.count = match i {
            0..40 => 0,
            40..90 => 5,
            _ => random.pick(&[6, 7, 8, 255, 256, 1 << 24, 1 << 32, (1 << 32) + 1, 1 << 63, u64::MAX]),
        };
        if i % 4 == 1 {
            call.dims = [4, 4, 4, 4];
        }
        if i % 4 == 2 {
            call.dims = [random.below(4), 1 << 40, 0, u64::MAX];
        }
        let call = if i % 2 == 0 { call } else { spoilt(random, call) };
        list.papers_refusal("1, axis count", 1, &call);
    }
}

// 2: an axis of 0 to 3 points, with lengths of the buffers that go with it and others.
fn short_axes(list: &mut List, random: &mut Random) {
    for i in 0..EACH {
        let mut call = if i % 7 == 6 { four_axes(random) } else { good(random) };
        let axis = random.below(call.count) as usize;
        call.dims[axis] = [3, 3, 0, 1, 2][i % 5];
        if i % 3 == 0 {
            let n: u64 = call.dims[..call.count as usize].iter().product();
            call.samples.resize(n as usize, 1.0);
            call.coefs = n as usize;
        }
        if i % 8 == 5 && call.count > 1 {
            let other = (axis + 1) % call.count as usize;
            call.dims[other] = random.pick(&[1 << 24, 1 << 62, u64::MAX]);
        }
        let call = if i % 2 == 0 { call } else { spoilt(random, call) };
        list.refusal("2, short axis", 2, &call);
    }
}

// Four axes with few samples: more than the map has are not wanted where a short axis is refused first.
fn four_axes(random: &mut Random) -> Call {
    let dims: [u64; 4] = std::array::from_fn(|_| random.between(4, 6));
    Call { count: 4, dims, grid: None, samples: samples(random, "ordinary", 6), coefs: 6, scratch: 12 }
}

// 3: more than 16,777,216 points, also where their number is past 64 bits. There the Rust says 2, as the buffers do not
// have that length.
fn too_many_points(list: &mut List, random: &mut Random) {
    for dims in LARGE {
        let call = with_dims(random, dims);
        list.papers_refusal("3, points", 3, &call);
    }
    for i in 0..EACH - LARGE.len() {
        let dims = if i % 3 == 2 { wrapped(random) } else { large(random) };
        let call = with_dims(random, &dims);
        let call = if i % 2 == 0 { call } else { spoilt(random, call) };
        list.papers_refusal("3, points", 3, &call);
    }
}

fn with_dims(random: &mut Random, dims: &[u64]) -> Call {
    let mut call = good(random);
    call.count = dims.len() as u64;
    call.dims = padded(random, dims);
    call
}

// 2: shapes of just 16,777,216 points, and a few less, are not too large; their buffers are.
fn most_points(list: &mut List, random: &mut Random) {
    for dims in MOST {
        for spoil in [false, true] {
            let call = with_dims(random, dims);
            let call = if spoil { spoilt(random, call) } else { call };
            list.refusal("2, most points with short buffers", 2, &call);
        }
    }
}

// 2: coefficients of another length.
fn coefficient_lengths(list: &mut List, random: &mut Random) {
    for i in 0..EACH {
        let mut call = good(random);
        let n = call.coefs;
        call.coefs = [n - 1, n + 1, 0, n - 1, n + 1, 1, 2 * n][i % 7];
        match i % 5 {
            0 => shorten_samples(random, &mut call),
            1 => call.samples.resize(call.coefs, 0.5),
            2 => call.scratch = random.pick(&[0, call.scratch - 1]),
            _ => (),
        }
        list.refusal("2, coefficients", 2, &call);
    }
}

// 2: samples of another length.
fn sample_lengths(list: &mut List, random: &mut Random) {
    for i in 0..EACH {
        let mut call = good(random);
        let n = call.coefs;
        call.samples.resize([n - 1, n + 1, 0, n - 1, n + 1, 1, n + 4][i % 7], -2.25);
        if i % 3 == 0 {
            call.scratch = random.pick(&[0, call.scratch - 1]);
        }
        list.refusal("2, samples", 2, &call);
    }
}

// 4: scratch shorter than twice the longest axis.
fn scratch_lengths(list: &mut List, random: &mut Random) {
    for i in 0..EACH {
        let mut call = good(random);
        let enough = call.scratch;
        call.scratch = [enough - 1, 0, enough - 1, 1, enough / 2, enough - 2, enough / 2 - 1][i % 7];
        list.refusal("4, scratch", 4, &call);
    }
}
