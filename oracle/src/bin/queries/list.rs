// The list: its words and its counts.
use crate::shared::axis::PLACES;
use crate::shared::map::{Answer, Batch, Map};
use crate::shared::words::{given, put_record, written};
use std::collections::BTreeMap;

// The most cells of each buffer of the replaying program.
const MOST_CELLS: usize = 1024;

pub struct List {
    text: Vec<u8>,
    maps: usize,
    queries: usize,
    refused: usize,
    classes: BTreeMap<String, (usize, usize)>,
    // by grid, axis count and axis, flag and place
    places: BTreeMap<(&'static str, u64, usize, bool, &'static str), usize>,
}

fn from_rust(map: &Map) -> u64 {
    if map.grid.is_none() { 4 } else { 8 }
}

fn from_papers(map: &Map) -> u64 {
    if map.grid.is_none() { 5 } else { 9 }
}

fn grid_name(map: &Map) -> &'static str {
    if map.grid.is_none() { "regular" } else { "rectilinear" }
}

impl List {
    pub fn new() -> List {
        List { text: Vec::new(), maps: 0, queries: 0, refused: 0, classes: BTreeMap::new(), places: BTreeMap::new() }
    }

    pub fn text(&self) -> &[u8] {
        &self.text
    }

    // A map whose queries the Rust answers, or refuses one by one.
    pub fn map(&mut self, class: &str, map: &Map) {
        let answer = map.answer();
        assert!(matches!(answer.values.number, 0 | 6) || matches!(answer.parts.number, 0 | 6), "{class}");
        assert!((0..map.queries()).all(|i| !map.overflows(i)), "{class}: the Rust overflows");
        self.answered(class, from_rust(map), map, &answer);
    }

    // The same, with queries at which the Rust overflows and the papers say 6.
    pub fn papers_map(&mut self, class: &str, map: &Map) {
        let answer = map.answer();
        assert!((0..map.queries()).any(|i| map.overflows(i)), "{class}: the Rust answers");
        self.answered(class, from_papers(map), map, &answer);
    }

    fn answered(&mut self, class: &str, kind: u64, map: &Map, answer: &Answer) {
        self.maps += 1;
        self.queries += map.queries();
        self.record(class, kind, map, answer);
        for (i, one) in answer.ones.iter().enumerate() {
            for axis in 0..map.count as usize {
                let place = if one.number == 0 { map.axis(axis).place(map.x(axis, i)) } else { "of refused queries" };
                *self.places.entry((grid_name(map), map.count, axis, map.linear, place)).or_default() += 1;
            }
        }
    }

    // A record that the Rust refuses as a whole, with the number that is meant.
    pub fn refusal(&mut self, class: &str, number: u64, map: &Map) {
        let answer = map.answer();
        let batch = Batch { number, written: 0 };
        assert_eq!((answer.values, answer.parts), (batch, batch), "{class}");
        self.refused += 1;
        self.record(class, from_rust(map), map, &answer);
    }

    // A refusal that only the papers define. Where the Rust can be asked it must refuse the map too, with 2: its coefficients
    // are never enough.
    pub fn papers_refusal(&mut self, class: &str, number: u64, map: &Map) {
        if map.can_ask() {
            assert_eq!(map.answer().values.number, 2, "{class}");
        }
        self.refused += 1;
        let batch = Batch { number, written: 0 };
        self.record(class, from_papers(map), map, &Answer { values: batch, parts: batch, ones: Vec::new() });
    }

    fn record(&mut self, class: &str, kind: u64, map: &Map, answer: &Answer) {
        let regular = [map.starts, map.steps].concat();
        let grid = map.grid.as_ref().unwrap_or(&regular);
        let lengths = [grid.len(), map.coefs.len(), map.xs.len(), map.values, map.parts];
        let mut words = vec![map.count];
        words.extend(map.dims);
        words.push(u64::from(map.linear));
        words.extend(lengths.map(|n| n as u64));
        for batch in [answer.values, answer.parts] {
            words.extend([batch.number, batch.written as u64]);
        }
        words.extend([grid, &map.coefs, &map.xs].into_iter().flat_map(|xs| given(xs)));
        words.extend(answer.ones.iter().map(|one| one.number));
        words.extend(answer.ones.iter().map(|one| written(one.value)));
        if !answer.ones.is_empty() {
            for axis in 0..map.count as usize {
                words.extend(answer.ones.iter().map(|one| written(one.parts[axis])));
            }
        }
        assert!(lengths.into_iter().all(|n| n <= MOST_CELLS), "{class}: too long a buffer");
        put_record(&mut self.text, class, kind, &words);
        let counts = self.classes.entry(format!("{}, {class}", grid_name(map))).or_default();
        *counts = (counts.0 + 1, counts.1 + answer.ones.len());
    }

    pub fn tell_counts(&self) {
        for (class, (records, queries)) in &self.classes {
            eprintln!("{records:5} records {queries:5} queries  {class}");
        }
        for grid in ["regular", "rectilinear"] {
            for count in 1..=4 {
                self.tell_places(grid, count);
            }
        }
        eprintln!("bytes,{}", self.text.len());
        eprintln!("maps,{}", self.maps);
        eprintln!("queries,{}", self.queries);
        eprintln!("refused,{}", self.refused);
    }

    // How many coordinates the rarest place has on one of the axes, with one of the flags, and in all.
    fn tell_places(&self, grid: &'static str, count: u64) {
        let find = |axis, linear, place| *self.places.get(&(grid, count, axis, linear, place)).unwrap_or(&0);
        let axes = 0..count as usize;
        let one = axes.clone().flat_map(|axis| [(axis, false), (axis, true)]);
        let all = [false, true].into_iter().flat_map(|linear| PLACES.map(|place| (linear, place)));
        let rarest = one.flat_map(|(axis, linear)| PLACES.map(|place| find(axis, linear, place))).min();
        let least = all.map(|(linear, place)| axes.clone().map(|axis| find(axis, linear, place)).sum::<usize>()).min();
        let (rarest, least) = (rarest.unwrap(), least.unwrap());
        eprintln!("{least:5} coordinates of each place and flag, {rarest} on each axis: {grid}, {count} axes");
    }
}
