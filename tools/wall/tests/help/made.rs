//! Made-up networks, the same for the same number of stations.

/// Numbers that look random (xorshift).
pub struct Dice(pub u64);

impl Dice {
    fn next(&mut self) -> u64 {
        self.0 ^= self.0 << 13;
        self.0 ^= self.0 >> 7;
        self.0 ^= self.0 << 17;
        self.0
    }

    pub fn below(&mut self, n: u64) -> u64 {
        self.next() % n
    }
}

/// The voltages of a station, in kV, and how many bars each has.
type Bars = Vec<(&'static str, usize)>;

const TOWNS: [&str; 12] =
    ["Ash", "Birch", "Cold", "Dun", "Elder", "Fox", "Glen", "Hazel", "Iron", "Juniper", "Kirk", "Long and Upper"];
const ENDS: [&str; 10] = ["bridge", "ford", "ham", "ley", "mere", "moor", "stead", "thorpe", "wick", "worth"];

fn bars(dice: &mut Dice, plain: bool) -> Bars {
    let count = |dice: &mut Dice| 1 + dice.below(3) as usize;
    match if plain { 9 } else { dice.below(10) } {
        0 => vec![("400", count(dice)), ("132", count(dice))],
        1 | 2 => vec![("132", count(dice)), ("33", count(dice))],
        3..=5 => vec![("33", count(dice)), ("11", count(dice))],
        6 => vec![("33", 1), ("11", 1), ("0.4", 1)],
        7 | 8 => vec![("11", count(dice))],
        _ => vec![("11", 1)],
    }
}

fn bus(town: &str, kv: &str, i: usize) -> String {
    match kv {
        "33" => format!("Busbar-{}-{kv}", char::from(b'A' + i as u8)) + " " + town,
        _ => format!("{town} {kv}/{}", i + 1),
    }
}

/// `buses.csv` and `branches.csv` of a network of so many stations. Above a thousand each has one bar.
pub fn network(stations: usize) -> (String, String) {
    let mut dice = Dice(0x9E37_79B9_7F4A_7C15);
    let side = (stations as f64).sqrt().ceil() as usize;
    let mut buses = String::from("name,substation,kv,x,y\n");
    let mut all: Vec<(String, Bars, [i64; 2])> = Vec::new();
    for i in 0..stations {
        let town = format!("{}{} {i}", TOWNS[dice.below(12) as usize], ENDS[dice.below(10) as usize]);
        let shift = |dice: &mut Dice| dice.below(700) as i64 - 350;
        let at = [(i % side) as i64 * 1000 + shift(&mut dice), (i / side) as i64 * 1000 + shift(&mut dice)];
        let bars = bars(&mut dice, stations > 1000);
        for (kv, count) in &bars {
            (0..*count)
                .for_each(|b| buses.push_str(&format!("{},{town},{kv},{},{}\n", bus(&town, kv, b), at[0], at[1])));
        }
        all.push((town, bars, at));
    }
    let mut branches = vec!["name,from,to,in_service".to_string()];
    for station in &all {
        inside(&mut dice, station, &mut branches);
    }
    for i in 0..stations {
        lines(&mut dice, &all, i, side, &mut branches);
    }
    (buses, branches.join("\n") + "\n")
}

/// Couplers between sections, one in six of them open, and transformers between voltages.
fn inside(dice: &mut Dice, (town, bars, _): &(String, Bars, [i64; 2]), out: &mut Vec<String>) {
    for (kv, count) in bars {
        for b in 1..*count {
            let live = u8::from(dice.below(6) != 0);
            out.push(format!("{town} {kv} coupler {b},{},{},{live}", bus(town, kv, b - 1), bus(town, kv, b)));
        }
    }
    for two in bars.windows(2) {
        for t in 0..two[0].1.max(two[1].1) {
            let (a, b) = (bus(town, two[0].0, t % two[0].1), bus(town, two[1].0, t % two[1].1));
            out.push(format!("{town} T{} {}/{},{a},{b},1", t + 1, two[0].0, two[1].0));
        }
    }
}

/// Lines to the two nearest later stations with the same voltage; one in twelve is open, three in ten are double.
fn lines(dice: &mut Dice, all: &[(String, Bars, [i64; 2])], i: usize, side: usize, out: &mut Vec<String>) {
    let (town, bars, at) = &all[i];
    for (kv, count) in bars {
        let near = (i + 1..all.len().min(i + 3 * side + 3)).filter(|&j| all[j].1.iter().any(|(other, _)| other == kv));
        let far = |j: &usize| (all[*j].2[0] - at[0]).pow(2) + (all[*j].2[1] - at[1]).pow(2);
        let mut list: Vec<usize> = near.collect();
        list.sort_by_key(far);
        for &j in list.iter().take(2) {
            let there = all[j].1.iter().find(|(other, _)| other == kv).map_or(1, |(_, count)| *count);
            let circuits = if dice.below(10) < 3 && all.len() <= 1000 { 2 } else { 1 };
            for c in 0..circuits {
                let live = u8::from(dice.below(12) != 0);
                let (a, b) = (bus(town, kv, c % count), bus(&all[j].0, kv, c % there));
                out.push(format!("{town} - {} {kv} {},{a},{b},{live}", all[j].0, c + 1));
            }
        }
    }
}
