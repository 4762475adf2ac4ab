//! No ordinary network is refused for its open branches: they run straight, under other boxes too.
mod help;
use help::made::Dice;
use help::{status, text, wall_in, Folder};

/// Draws a network, and checks its sheet.
fn draws(name: &str, buses: &str, branches: &str) {
    let folder = Folder::new("open");
    folder.write("buses.csv", format!("name,substation,kv,x,y\n{buses}").as_bytes());
    folder.write("branches.csv", format!("name,from,to,in_service\n{branches}").as_bytes());
    for words in [["draw", ".", "-o", "sheet.svg"].as_slice(), &["check", "sheet.svg", "."]] {
        let output = wall_in(&folder.0, words);
        assert_eq!(status(&output), 0, "{name}: {}{}", text(&output.stdout), text(&output.stderr));
    }
}

/// Three stations in a row without a live branch: what two open branches share begins and ends under the middle box.
#[test]
fn a_stretch_that_ends_under_a_box() {
    let bus = |name: &str, x: i64, y: i64| format!("{name}A,{name},132,{x},{y}\n{name}B,{name},132,{x},{y}\n");
    let buses = [bus("P", 0, 0), bus("M", 500, -22), bus("Q", 1000, 0)].concat();
    draws("three", &buses, "o1,PB,QA,0\no3,PA,QA,0\no4,PB,QA,0\n");
}

/// Small networks in rows, grids and heaps, most of their branches open.
#[test]
fn made_networks_draw() {
    for seed in 1..=60_u64 {
        let mut dice = Dice(0x9E37_79B9_7F4A_7C15 ^ (seed << 17));
        let stations = 3 + dice.below(8);
        let (mut buses, mut names) = (String::new(), Vec::new());
        for s in 0..stations {
            let shift = |dice: &mut Dice, by: u64| dice.below(2 * by + 1) as i64 - by as i64;
            let [x, y] = match seed % 3 {
                0 => [500 * s as i64, shift(&mut dice, 40)],
                1 => [(s % 3) as i64 * 700 + shift(&mut dice, 30), (s / 3) as i64 * 700 + shift(&mut dice, 30)],
                _ => [dice.below(3000) as i64, dice.below(3000) as i64],
            };
            for b in 0..1 + dice.below(3) {
                let name = format!("S{s}B{b}");
                buses.push_str(&format!("{name},S{s},{},{x},{y}\n", if b == 2 { 33 } else { 132 }));
                names.push(name);
            }
        }
        let mut branches = String::new();
        for e in 0..stations * 3 {
            let [from, to] = [0, 1].map(|_| dice.below(names.len() as u64) as usize);
            if from != to {
                let live = u8::from(dice.below(4) == 0);
                branches.push_str(&format!("e{e},{},{},{live}\n", names[from], names[to]));
            }
        }
        draws(&format!("seed {seed}"), &buses, &branches);
    }
}
