// The folder of inputs: a file for each, and index.txt with the start of the last line that the papers ask for on each.
use crate::input::Input;
use crate::shared::axis::PLACES;
use std::collections::BTreeMap;
use std::path::PathBuf;

pub struct Folder {
    path: PathBuf,
    index: String,
    inputs: usize,
    classes: BTreeMap<String, usize>,
    // coordinates of answered queries by letter, axis count and axis, flag and place
    places: BTreeMap<(bool, usize, usize, bool, &'static str), usize>,
}

impl Folder {
    pub fn new(path: &str) -> Folder {
        std::fs::create_dir_all(path).unwrap_or_else(|e| panic!("{path}: {e}"));
        let (classes, places) = (BTreeMap::new(), BTreeMap::new());
        Folder { path: path.into(), index: String::new(), inputs: 0, classes, places }
    }

    // An input and the start of the last line for it: M or X with its number, or T with the number of queries.
    pub fn put(&mut self, class: &str, last: &str, text: &[u8]) {
        self.inputs += 1;
        let words: String = class.chars().map(|c| if c.is_ascii_alphanumeric() { c } else { '_' }).collect();
        let name = format!("{:03}_{words}.txt", self.inputs);
        std::fs::write(self.path.join(&name), text).unwrap_or_else(|e| panic!("{name}: {e}"));
        self.index += &format!("{name},{last}\n");
        *self.classes.entry(class.to_string()).or_default() += 1;
    }

    // A map that is accepted, with queries that can all be read.
    pub fn put_valid(&mut self, class: &str, input: &Input) {
        let count = input.dims.len();
        let answered = |query: &&Vec<f64>| (0..count).all(|axis| !input.axis(axis).refuses(query[axis]));
        for query in input.queries.iter().filter(answered) {
            for (axis, &x) in query.iter().enumerate() {
                let place = input.axis(axis).place(x);
                *self.places.entry((input.regular, count, axis, input.linear, place)).or_default() += 1;
            }
        }
        self.put(class, &format!("T,{}", input.queries.len()), &input.text());
    }

    pub fn finish(&self) {
        std::fs::write(self.path.join("index.txt"), &self.index).expect("index.txt");
        for (class, n) in &self.classes {
            eprintln!("{n:5}  {class}");
        }
        for (regular, letter) in [(true, 'E'), (false, 'R')] {
            for count in 1..=4 {
                let rarest = self.rarest(regular, count);
                eprintln!("{rarest:5} coordinates of each place, axis and flag: {letter}, {count} axes");
            }
        }
        eprintln!("inputs,{}", self.inputs);
    }

    // How many coordinates of answered queries the rarest place has on one of the axes, with one of the flags.
    fn rarest(&self, regular: bool, count: usize) -> usize {
        let axes = (0..count).flat_map(|axis| [(axis, false), (axis, true)]);
        let all = axes.flat_map(|(axis, linear)| PLACES.map(|place| (regular, count, axis, linear, place)));
        all.map(|key| *self.places.get(&key).unwrap_or(&0)).min().unwrap()
    }
}
