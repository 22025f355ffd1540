//! The comparison with the published T-mesh: README.md says what each word does.
mod basis_cases;
mod bound;
mod bytes;
mod calls;
mod compare;
mod differences;
mod draw;
mod file_cases;
mod index;
mod ledger;
mod load;
mod load_cases;
mod map_calls;
mod map_cases;
mod map_file;
mod original;
mod proved;
mod random;
mod reading;
mod season;
mod season_cases;
mod store_cases;
mod tallies;

/// The seed of every stored list.
const SEED: u64 = 20030727;

fn main() {
    let words: Vec<String> = std::env::args().skip(1).collect();
    match words.first().map(String::as_str) {
        Some("basis") => basis_cases::write(SEED),
        Some("store") => store_cases::write(SEED),
        Some("map") => map_cases::write(SEED),
        Some("files") => file_cases::write(SEED),
        Some("seasons") => season_cases::write(SEED),
        Some("loads") => load_cases::write(SEED),
        Some("sample") => map_file::write_sample_answers(),
        Some("compare") => {
            let maps = words.get(1).map_or(20000, |word| word.parse().expect("a number of maps"));
            let seed = words.get(2).map_or(SEED, |word| word.parse().expect("a seed"));
            compare::run(seed, maps)
        }
        Some("proved") => {
            let count = words.get(1).map_or(50000, |word| word.parse().expect("a number of maps"));
            let seed = words.get(2).map_or(SEED, |word| word.parse().expect("a seed"));
            proved::compare(seed, count)
        }
        Some("bound") => {
            let evaluations = words.get(1).map_or(1000000, |word| word.parse().expect("a number of evaluations"));
            let seed = words.get(2).map_or(SEED, |word| word.parse().expect("a seed"));
            proved::bound(seed, evaluations)
        }
        Some("differences") => differences::show(),
        Some("published-side") => differences::published_side(words[1].parse().expect("the number of an example")),
        _ => println!("words: basis store map files seasons loads sample compare proved bound differences"),
    }
}
