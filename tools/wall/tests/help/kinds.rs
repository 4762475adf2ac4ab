//! Made-up networks of the kinds that a shift has: works, meshed rings with tails, towns on ring mains, grids, stars and test
//! systems whose topology is published. Each is the same whenever it is made.
use super::made::Dice;
use std::fmt::Write;

pub const KINDS: [&str; 9] = ["works", "mesh", "town", "many", "grid", "star", "ieee14", "ieee30", "ieee118"];

#[derive(Default)]
struct Made {
    buses: String,
    branches: String,
    count: usize,
}

impl Made {
    fn bus(&mut self, name: &str, station: &str, kv: &str, [x, y]: [i64; 2]) {
        writeln!(self.buses, "{name},{station},{kv},{x},{y}").unwrap();
    }

    fn branch(&mut self, name: &str, from: &str, to: &str, live: bool) {
        self.count += 1;
        writeln!(self.branches, "{name},{from},{to},{}", u8::from(live)).unwrap();
    }

    fn files(self) -> (String, String) {
        ("name,substation,kv,x,y\n".to_string() + &self.buses, "name,from,to,in_service\n".to_string() + &self.branches)
    }
}

/// `buses.csv` and `branches.csv` of a network of a kind; none where there is no such kind.
pub fn network(kind: &str) -> Option<(String, String)> {
    let made = match kind {
        "works" => works(),
        "mesh" => mesh(),
        "town" => town(),
        "many" => many(),
        "grid" => grid(),
        "star" => star(),
        "ieee14" => published(&IEEE14, &PLACES14, &LOW),
        "ieee30" => published(&IEEE30, &PLACES30, &LOW),
        "ieee118" => ieee118(),
        _ => return None,
    };
    Some(made.files())
}

/// A point off its place by up to so much on each axis.
fn off(dice: &mut Dice, [x, y]: [i64; 2], by: u64) -> [i64; 2] {
    let mut shift = || dice.below(2 * by + 1) as i64 - by as i64;
    [x + shift(), y + shift()]
}

/// A works of 40 stations: two intakes at 66 kV, eight main boards at 11 kV in a ring, and thirty boards at 3.3 and 0.4 kV
/// with two feeders each, one of them open.
fn works() -> Made {
    let (mut made, mut dice) = (Made::default(), Dice(0x1234_5678_9ABC_DEF1));
    for i in 0..2 {
        let (name, at) = (format!("Intake {}", i + 1), [400 + 2200 * i, 200]);
        for b in 1..=2 {
            made.bus(&format!("{name} 66/{b}"), &name, "66", at);
            made.bus(&format!("{name} 11/{b}"), &name, "11", at);
            made.branch(&format!("{name} T{b}"), &format!("{name} 66/{b}"), &format!("{name} 11/{b}"), true);
        }
        made.branch(&format!("{name} 66 coupler"), &format!("{name} 66/1"), &format!("{name} 66/2"), true);
        made.branch(&format!("{name} 11 coupler"), &format!("{name} 11/1"), &format!("{name} 11/2"), false);
    }
    for i in 0..8 {
        let (name, at) =
            (format!("Main board {}", i + 1), off(&mut dice, [300 + 700 * (i % 4), 800 + 1000 * (i / 4)], 120));
        for b in 1..=2 {
            made.bus(&format!("{name} 11/{b}"), &name, "11", at);
        }
        made.branch(&format!("{name} coupler"), &format!("{name} 11/1"), &format!("{name} 11/2"), i % 3 > 0);
        let intake = format!("Intake {}", 1 + (i % 4) / 2);
        for b in 1..=2 {
            made.branch(&format!("{intake}-{name} {b}"), &format!("{intake} 11/{b}"), &format!("{name} 11/{b}"), true);
        }
        if i % 4 > 0 {
            made.branch(&format!("Tie {i}"), &format!("Main board {i} 11/2"), &format!("{name} 11/1"), i % 2 > 0);
        }
    }
    for i in 0..30 {
        let board = format!("Main board {}", 1 + i % 8);
        let (x, y) = ((i % 8 % 4) as i64, (i % 8 / 4) as i64);
        let at = off(
            &mut dice,
            [300 + 700 * x + 190 * (i / 8) as i64 - 250, 1250 + 1000 * y + 150 * (i as i64 / 8 % 2)],
            60,
        );
        let (name, kv) = (format!("Shop {:0>2}", i + 1), if i % 2 == 0 { "3.3" } else { "0.4" });
        made.bus(&format!("{name} 11"), &name, "11", at);
        made.bus(&format!("{name} {kv}"), &name, kv, at);
        made.branch(&format!("{name} T1"), &format!("{name} 11"), &format!("{name} {kv}"), true);
        made.branch(&format!("{board}-{name} A"), &format!("{board} 11/1"), &format!("{name} 11"), true);
        made.branch(&format!("{board}-{name} B"), &format!("{board} 11/2"), &format!("{name} 11"), i % 3 > 0);
        if i >= 8 && i % 5 == 0 {
            made.branch(
                &format!("{name} reserve"),
                &format!("Shop {:0>2} {kv}", i - 7),
                &format!("{name} {kv}"),
                false,
            );
        }
    }
    made
}

/// A meshed ring of 25 stations at 110 kV with 70 stations on radial tails at 20 kV.
fn mesh() -> Made {
    let (mut made, mut dice) = (Made::default(), Dice(0x0FED_CBA9_8765_4321));
    let place = |i: usize, radius: f64, turn: f64| {
        let angle = (i as f64 + turn) / 25.0 * std::f64::consts::TAU;
        [(2000.0 + 1.3 * radius * angle.cos()) as i64, (2000.0 + radius * angle.sin()) as i64]
    };
    for i in 0..25 {
        let (name, at) = (format!("Ring {:0>2}", i + 1), off(&mut dice, place(i, 1100.0, 0.0), 60));
        made.bus(&format!("{name} 110/1"), &name, "110", at);
        made.bus(&format!("{name} 110/2"), &name, "110", at);
        made.bus(&format!("{name} 20"), &name, "20", at);
        made.branch(&format!("{name} coupler"), &format!("{name} 110/1"), &format!("{name} 110/2"), true);
        made.branch(&format!("{name} T1"), &format!("{name} 110/1"), &format!("{name} 20"), true);
    }
    for i in 0..25 {
        let bus = |i: usize, b: usize| format!("Ring {:0>2} 110/{b}", i % 25 + 1);
        made.branch(&format!("Ring line {}", i + 1), &bus(i, 1), &bus(i + 1, 1), true);
        if i % 4 == 0 {
            made.branch(&format!("Chord {}", i + 1), &bus(i, 2), &bus(i + 7, 2), i % 8 > 0);
        }
    }
    for i in 0..70 {
        let (ring, step) = (i % 25, 1 + i / 25);
        let (name, at) =
            (format!("Tail {:0>2}", i + 1), off(&mut dice, place(ring, 1100.0 + 420.0 * step as f64, 0.15), 90));
        made.bus(&format!("{name} 20"), &name, "20", at);
        let before = if step == 1 { format!("Ring {:0>2} 20", ring + 1) } else { format!("Tail {:0>2} 20", i - 24) };
        made.branch(&format!("Tail line {}", i + 1), &before, &format!("{name} 20"), true);
        if step == 2 && i % 3 == 0 {
            made.branch(&format!("Tail tie {}", i + 1), &format!("Tail {:0>2} 20", i), &format!("{name} 20"), false);
        }
    }
    made
}

/// A town of 220 stations: four primaries, and ring mains of nine units that begin and end at one of them, open at their fifth.
fn town() -> Made {
    let (mut made, mut dice) = (Made::default(), Dice(0x5DEE_CE66_D1CE_B00B));
    let primaries = [[900, 900], [3100, 900], [900, 2500], [3100, 2500]];
    for (i, at) in primaries.into_iter().enumerate() {
        let name = format!("Primary {}", i + 1);
        for b in 1..=2 {
            made.bus(&format!("{name} 33/{b}"), &name, "33", at);
            made.bus(&format!("{name} 11/{b}"), &name, "11", at);
            made.branch(&format!("{name} T{b}"), &format!("{name} 33/{b}"), &format!("{name} 11/{b}"), true);
        }
        made.branch(&format!("{name} 11 section"), &format!("{name} 11/1"), &format!("{name} 11/2"), false);
    }
    for (a, b) in [(1, 2), (2, 4), (4, 3), (3, 1)] {
        made.branch(&format!("Primary {a}-{b}"), &format!("Primary {a} 33/1"), &format!("Primary {b} 33/2"), true);
    }
    for i in 0..216 {
        let (primary, ring, place) = (i / 54, i % 54 / 9, i % 9);
        let angle = (ring as f64 + (place as f64 - 4.0) / 11.0) / 6.0 * std::f64::consts::TAU;
        let radius = 330.0 + 130.0 * (4 - (place as i64 - 4).abs()) as f64;
        let [x, y] = primaries[primary];
        let at = [x + (1.35 * radius * angle.cos()) as i64, y + (radius * angle.sin()) as i64];
        let (name, at) = (format!("RMU {:03}", i + 1), off(&mut dice, at, 25));
        made.bus(&format!("RMU/{:03}/11", i + 1), &name, "11", at);
        let bus = format!("RMU/{:03}/11", i + 1);
        let before = if place == 0 { format!("Primary {} 11/1", primary + 1) } else { format!("RMU/{i:03}/11") };
        made.branch(&format!("Cable {:03}", i + 1), &before, &bus, place != 5);
        if place == 8 {
            made.branch(&format!("Cable {:03} back", i + 1), &bus, &format!("Primary {} 11/2", primary + 1), true);
        }
        if dice.below(5) == 0 {
            made.bus(&format!("RMU/{:03}/LV", i + 1), &name, "0.4", at);
            made.branch(&format!("RMU/{:03} T", i + 1), &bus, &format!("RMU/{:03}/LV", i + 1), true);
        }
    }
    made
}

/// Three hundred branches between 90 stations, one in ten of them open.
fn many() -> Made {
    let (mut made, mut dice) = (Made::default(), Dice(0xA5A5_1357_2468_ACE1));
    let places: Vec<[i64; 2]> = (0..90).map(|i| off(&mut dice, [i % 10 * 420, i / 10 * 400], 130)).collect();
    for (i, &at) in places.iter().enumerate() {
        let name = format!("Station {:0>2}", i + 1);
        made.bus(&format!("{name} A"), &name, "132", at);
        made.bus(&format!("{name} B"), &name, if i % 3 == 0 { "33" } else { "132" }, at);
        made.branch(&format!("{name} bay"), &format!("{name} A"), &format!("{name} B"), i % 7 > 0);
    }
    'all: for step in 1..5 {
        for i in 0..90_usize {
            let far = |j: &usize| (places[*j][0] - places[i][0]).pow(2) + (places[*j][1] - places[i][1]).pow(2);
            let mut near: Vec<usize> = (0..90).filter(|&j| j != i).collect();
            near.sort_by_key(far);
            let j = near[step];
            let (a, b) = (if dice.below(2) == 0 { 'A' } else { 'B' }, if dice.below(2) == 0 { 'A' } else { 'B' });
            let (from, to) = (format!("Station {:0>2} {a}", i + 1), format!("Station {:0>2} {b}", j + 1));
            made.branch(&format!("Line {}", made.count + 1), &from, &to, dice.below(10) > 0);
            if made.count == 300 {
                break 'all;
            }
        }
    }
    made
}

/// Eight by eight stations, each joined to the next on its right and below it.
fn grid() -> Made {
    let (mut made, mut dice) = (Made::default(), Dice(0x7777_3333_1111_9999));
    for i in 0..64_i64 {
        let name = format!("Node {}{}", char::from(b'A' + (i / 8) as u8), i % 8 + 1);
        let at = off(&mut dice, [i % 8 * 500, i / 8 * 400], 40);
        made.bus(&format!("{name} 66"), &name, "66", at);
    }
    let bus = |i: i64| format!("Node {}{} 66", char::from(b'A' + (i / 8) as u8), i % 8 + 1);
    for i in 0..64_i64 {
        if i % 8 < 7 {
            made.branch(&format!("Row {}", i + 1), &bus(i), &bus(i + 1), i % 11 > 0);
        }
        if i < 56 {
            made.branch(&format!("Column {}", i + 1), &bus(i), &bus(i + 8), i % 13 > 0);
        }
    }
    made
}

/// One station in the middle and twelve feeders of six stations, whose ends are tied.
fn star() -> Made {
    let (mut made, mut dice) = (Made::default(), Dice(0x0BAD_5EED_CAFE_F00D));
    for b in 1..=4 {
        made.bus(&format!("Centre 11/{b}"), "Centre", "11", [2000, 2000]);
        if b > 1 {
            made.branch(
                &format!("Centre coupler {b}"),
                &format!("Centre 11/{}", b - 1),
                &format!("Centre 11/{b}"),
                b != 3,
            );
        }
    }
    for i in 0..72_usize {
        let (feeder, step) = (i / 6, i % 6);
        let angle = (feeder as f64 + 0.3) / 12.0 * std::f64::consts::TAU;
        let radius = 450.0 + 280.0 * step as f64;
        let at = [(2000.0 + 1.4 * radius * angle.cos()) as i64, (2000.0 + radius * angle.sin()) as i64];
        let (name, at) = (format!("Feeder {}-{}", feeder + 1, step + 1), off(&mut dice, at, 30));
        made.bus(&name, &format!("Kiosk {}", i + 1), "11", at);
        let before =
            if step == 0 { format!("Centre 11/{}", feeder % 4 + 1) } else { format!("Feeder {}-{step}", feeder + 1) };
        made.branch(&format!("Section {}-{}", feeder + 1, step + 1), &before, &name, true);
        if step == 5 && feeder > 0 {
            made.branch(&format!("Tie {feeder}"), &format!("Feeder {feeder}-6"), &name, false);
        }
    }
    made
}

/// The branches of published test systems, and about where their drawings have the buses.
const IEEE14: [(usize, usize); 20] = [
    (1, 2),
    (1, 5),
    (2, 3),
    (2, 4),
    (2, 5),
    (3, 4),
    (4, 5),
    (4, 7),
    (4, 9),
    (5, 6),
    (6, 11),
    (6, 12),
    (6, 13),
    (7, 8),
    (7, 9),
    (9, 10),
    (9, 14),
    (10, 11),
    (12, 13),
    (13, 14),
];
const PLACES14: [[i64; 2]; 14] = [
    [0, 600],
    [250, 900],
    [900, 950],
    [850, 600],
    [400, 600],
    [350, 300],
    [1000, 450],
    [1200, 500],
    [850, 300],
    [700, 250],
    [520, 280],
    [120, 120],
    [450, 60],
    [800, 80],
];
const IEEE30: [(usize, usize); 41] = [
    (1, 2),
    (1, 3),
    (2, 4),
    (3, 4),
    (2, 5),
    (2, 6),
    (4, 6),
    (5, 7),
    (6, 7),
    (6, 8),
    (6, 9),
    (6, 10),
    (9, 11),
    (9, 10),
    (4, 12),
    (12, 13),
    (12, 14),
    (12, 15),
    (12, 16),
    (14, 15),
    (16, 17),
    (15, 18),
    (18, 19),
    (19, 20),
    (10, 20),
    (10, 17),
    (10, 21),
    (10, 22),
    (21, 22),
    (15, 23),
    (22, 24),
    (23, 24),
    (24, 25),
    (25, 26),
    (25, 27),
    (27, 28),
    (27, 29),
    (27, 30),
    (29, 30),
    (8, 28),
    (6, 28),
];
const PLACES30: [[i64; 2]; 30] = [
    [0, 900],
    [250, 1000],
    [150, 700],
    [350, 700],
    [600, 1150],
    [700, 800],
    [750, 1050],
    [1000, 850],
    [800, 600],
    [850, 450],
    [980, 620],
    [350, 450],
    [180, 500],
    [120, 250],
    [330, 220],
    [520, 420],
    [650, 400],
    [500, 180],
    [620, 200],
    [740, 260],
    [950, 380],
    [1020, 300],
    [450, 60],
    [800, 80],
    [1050, 100],
    [1180, 40],
    [1220, 260],
    [1150, 700],
    [1330, 180],
    [1380, 330],
];

/// The branches of the system of 118 buses, seven of them double, and places of its buses by the lengths of the ways between
/// them.
const IEEE118: &str =
    "1-2 1-3 4-5 3-5 5-6 6-7 8-9 8-5 9-10 4-11 5-11 11-12 2-12 3-12 7-12 11-13 12-14 13-15 14-15 12-16 15-17 16-17 \
     17-18 18-19 19-20 15-19 20-21 21-22 22-23 23-24 23-25 26-25 25-27 27-28 28-29 30-17 8-30 26-30 17-31 29-31 23-32 \
     31-32 27-32 15-33 19-34 35-36 35-37 33-37 34-36 34-37 38-37 37-39 37-40 30-38 39-40 40-41 40-42 41-42 43-44 \
     34-43 44-45 45-46 46-47 46-48 47-49 42-49 42-49 45-49 48-49 49-50 49-51 51-52 52-53 53-54 49-54 49-54 54-55 \
     54-56 55-56 56-57 50-57 56-58 51-58 54-59 56-59 56-59 55-59 59-60 59-61 60-61 60-62 61-62 63-59 63-64 64-61 \
     38-65 64-65 49-66 49-66 62-66 62-67 65-66 66-67 65-68 47-69 49-69 68-69 69-70 24-70 70-71 24-72 71-72 71-73 \
     70-74 70-75 69-75 74-75 76-77 69-77 75-77 77-78 78-79 77-80 77-80 79-80 68-81 81-80 77-82 82-83 83-84 83-85 \
     84-85 85-86 86-87 85-88 85-89 88-89 89-90 89-90 90-91 89-92 89-92 91-92 92-93 92-94 93-94 94-95 80-96 82-96 \
     94-96 80-97 80-98 80-99 92-100 94-100 95-96 96-97 98-100 99-100 100-101 92-102 101-102 100-103 100-104 103-104 \
     103-105 100-106 104-105 105-106 105-107 105-108 106-107 108-109 103-110 109-110 110-111 110-112 17-113 32-113 \
     32-114 27-115 114-115 68-116 12-117 75-118 76-118";
const PLACES118: &str =
    "0,1259 140,1406 229,1147 229,827 392,926 149,935 105,1175 660,898 508,665 333,474 304,1051 331,1291 482,1032 \
     484,1216 682,1085 566,1363 808,1271 718,1183 795,994 885,1282 1021,1532 1296,1631 1334,1463 1532,1324 1161,1492 \
     1047,1263 1046,1770 859,1909 747,1738 954,1056 854,1524 1110,1610 849,883 853,711 850,514 680,500 1025,753 \
     1171,904 1031,574 1212,683 1282,539 1468,658 988,472 1245,419 1551,486 1746,513 1795,694 1862,539 1685,582 \
     1817,432 1840,362 1994,174 1825,66 1680,294 1638,22 1714,99 1892,184 1879,87 1530,117 1386,0 1345,169 1447,271 \
     1294,207 1344,481 1415,783 1495,563 1369,364 1664,895 1797,839 1698,1118 1762,1374 1631,1548 1857,1614 1835,1224 \
     1867,1004 2078,1019 2050,864 2154,708 2276,864 2185,1047 1940,1018 2302,764 2497,604 2638,464 2745,620 2887,412 \
     3043,255 2936,645 2904,822 3144,816 3058,1013 2820,1079 2797,958 2619,1084 2576,926 2408,965 2297,1083 2383,1203 \
     2349,1258 2612,1268 2807,1268 3009,1169 2783,1452 2664,1461 2747,1671 2587,1521 2607,1749 2838,1891 3004,1824 \
     2981,1580 3156,1703 3216,1542 912,1456 1172,1863 1071,2014 1608,1051 240,1510 1969,1190";

/// The buses at the higher voltage of the small systems, and of the large one.
const LOW: [usize; 8] = [1, 2, 3, 4, 5, 6, 7, 8];
const HIGH118: [usize; 12] = [8, 9, 10, 26, 30, 38, 63, 64, 65, 68, 81, 116];

fn ieee118() -> Made {
    let pairs = |text: &str, between: char| -> Vec<(i64, i64)> {
        let pair = |word: &str| {
            let (a, b) = word.split_once(between).unwrap();
            (a.parse().unwrap(), b.parse().unwrap())
        };
        text.split_whitespace().map(pair).collect()
    };
    let branches: Vec<(usize, usize)> =
        pairs(IEEE118, '-').into_iter().map(|(a, b)| (a as usize, b as usize)).collect();
    let places: Vec<[i64; 2]> = pairs(PLACES118, ',').into_iter().map(|(x, y)| [x, y]).collect();
    assert_eq!((branches.len(), places.len()), (186, 118));
    published(&branches, &places, &HIGH118)
}

/// A station for each bus, in about the way the published drawings have it; every seventh branch is open. These buses have the
/// higher voltage.
fn published(pairs: &[(usize, usize)], places: &[[i64; 2]], high: &[usize]) -> Made {
    let mut made = Made::default();
    for (i, &at) in places.iter().enumerate() {
        let kv = if high.contains(&(i + 1)) { "132" } else { "33" };
        made.bus(&format!("Bus {}", i + 1), &format!("Station {}", i + 1), kv, at);
    }
    for (i, (a, b)) in pairs.iter().enumerate() {
        let second = if pairs[..i].contains(&(*a, *b)) { " 2" } else { "" };
        made.branch(&format!("Line {a}-{b}{second}"), &format!("Bus {a}"), &format!("Bus {b}"), i % 7 != 6);
    }
    made
}
