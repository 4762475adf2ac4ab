//! Writes a made-up network: cargo run --release --example made -- STATIONS FOLDER, or KIND FOLDER (tests/help/kinds.rs)
#[path = "../tests/help/kinds.rs"]
mod kinds;
#[path = "../tests/help/made.rs"]
mod made;

fn main() {
    let words: Vec<String> = std::env::args().collect();
    let [_, what, folder] = &words[..] else { panic!("expected STATIONS or a KIND, and FOLDER") };
    let stations = || {
        made::network(
            what.parse().unwrap_or_else(|_| panic!("expected a number of stations or one of {:?}", kinds::KINDS)),
        )
    };
    let (buses, branches) = kinds::network(what).unwrap_or_else(stations);
    std::fs::create_dir_all(folder).expect("a folder");
    std::fs::write(format!("{folder}/buses.csv"), buses).expect("buses.csv written");
    std::fs::write(format!("{folder}/branches.csv"), branches).expect("branches.csv written");
}
