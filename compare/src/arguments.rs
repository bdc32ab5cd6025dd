// The command line: --seconds N, --seed N, --from N to begin at a later case, --case N for a single one.

pub struct Arguments {
    pub seconds: u64,
    pub seed: u64,
    pub from: u64,
    pub case: Option<u64>,
}

impl Arguments {
    pub fn read() -> Arguments {
        let mut out = Arguments { seconds: 60, seed: 1, from: 0, case: None };
        let mut words = std::env::args().skip(1);
        while let Some(word) = words.next() {
            let number = words.next().and_then(|text| text.parse().ok());
            match (word.as_str(), number) {
                ("--seconds", Some(n)) => out.seconds = n,
                ("--seed", Some(n)) => out.seed = n,
                ("--from", Some(n)) => out.from = n,
                ("--case", Some(n)) => out.case = Some(n),
                _ => usage(),
            }
        }
        out
    }
}

fn usage() -> ! {
    eprintln!("compare [--seconds N] [--seed N] [--from N] [--case N]");
    std::process::exit(2)
}
