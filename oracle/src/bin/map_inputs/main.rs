// Writes inputs of the map program into a folder, valid, refused and damaged ones, and their counts to standard error. What
// is drawn follows from the seed alone. ../../../README.md describes them.
mod ends;
mod exact;
mod folder;
mod heads;
mod input;
mod lines;
mod refused;
#[allow(dead_code)]
#[path = "../../shared/mod.rs"]
mod shared;
mod valid;

use folder::Folder;
use shared::random::Random;

const SEED: u64 = 0x26_574e_b56a;
const USAGE: &str = "map_inputs FOLDER [SEED]: the seed is a decimal number";

fn main() {
    let arguments: Vec<String> = std::env::args().skip(1).collect();
    let (path, seed) = match &arguments[..] {
        [path] => (path, SEED),
        [path, seed] => (path, seed.parse().expect(USAGE)),
        _ => panic!("{USAGE}"),
    };
    let mut random = Random::new(seed);
    let mut folder = Folder::new(path);
    valid::add(&mut folder, &mut random);
    refused::add(&mut folder, &mut random);
    heads::add(&mut folder, &mut random);
    lines::add(&mut folder, &mut random);
    ends::add(&mut folder, &mut random);
    folder.finish();
}
