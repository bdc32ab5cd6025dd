// Lengths about the most points that a map may have: 16,777,216.
use super::random::Random;

// More than the most, also past 64 bits.
pub const LARGE: [&[u64]; 34] = [
    // 16,777,217 points, and a few more
    &[16_777_217],
    &[97, 172_961],
    &[172_961, 97],
    &[257, 65_281],
    &[673, 24_929],
    &[97, 257, 673],
    &[673, 257, 97],
    &[4, 4_194_305],
    &[4096, 4097],
    &[4097, 4096],
    &[256, 256, 257],
    &[257, 256, 256],
    &[256, 257, 256],
    &[64, 64, 64, 65],
    &[65, 64, 64, 64],
    &[4, 4, 4, 262_145],
    &[4, 4, 1_048_577, 4],
    // about 32 and 64 bits
    &[1 << 32],
    &[(1 << 32) + 4],
    &[1 << 63],
    &[u64::MAX],
    &[1 << 16, 1 << 16],
    &[1 << 31, 1 << 32],
    &[u64::MAX, 4],
    &[4, u64::MAX],
    &[u64::MAX, u64::MAX],
    &[u64::MAX, u64::MAX, u64::MAX, u64::MAX],
    // the product past 64 bits would wrap to 0
    &[1 << 32, 1 << 32],
    &[1 << 62, 4],
    &[4, 1 << 62],
    &[1 << 22, 1 << 22, 1 << 20],
    &[1 << 16, 1 << 16, 1 << 16, 1 << 16],
    &[16_777_216, 16_777_216, 16_777_216],
    &[4, 4, 4, 1 << 58],
];

// The most, and a few less.
pub const MOST: [&[u64]; 14] = [
    &[16_777_216],
    &[16_777_215],
    &[4096, 4096],
    &[4, 4_194_304],
    &[4_194_304, 4],
    &[4095, 4097],
    &[256, 256, 256],
    &[4, 1024, 4096],
    &[255, 257, 256],
    &[64, 64, 64, 64],
    &[4, 4, 4, 262_144],
    &[262_144, 4, 4, 4],
    &[16, 64, 128, 128],
    &[63, 65, 64, 64],
];

// Random lengths with more than 16,777,216 points.
pub fn large(random: &mut Random) -> Vec<u64> {
    let count = random.between(1, 4);
    loop {
        let dims: Vec<u64> = (0..count).map(|_| 4 + (random.bits() >> random.between(0, 61))).collect();
        let points = dims.iter().try_fold(1u64, |n, &d| n.checked_mul(d));
        if points.is_none_or(|n| n > 16_777_216) {
            return dims;
        }
    }
}

// Two or three lengths whose product, were it to wrap at 64 bits, would be 16: an odd length and sixteen times its inverse.
pub fn wrapped(random: &mut Random) -> Vec<u64> {
    let odd = 5 + 2 * random.below(1000);
    let mut inverse = odd;
    for _ in 0..6 {
        inverse = inverse.wrapping_mul(2u64.wrapping_sub(odd.wrapping_mul(inverse)));
    }
    match random.below(3) {
        0 => vec![odd, inverse.wrapping_mul(16)],
        1 => vec![inverse.wrapping_mul(16), odd],
        _ => vec![4, odd, inverse.wrapping_mul(4)],
    }
}
