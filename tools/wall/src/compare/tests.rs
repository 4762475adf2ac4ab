//! Differences between small networks.
use super::words::{csv, line, text};
use super::*;
use crate::network::{Branch, Bus, More, Numbering};

/// A network from rows: bus, substation, kv and place; branch, from, to and service.
fn network(buses: &[(&str, &str, f64, [f64; 2])], branches: &[(&str, &str, &str, u8)]) -> Network {
    let mut stations: Vec<String> = Vec::new();
    let mut list = Vec::new();
    for (i, &(name, station, kv, at)) in buses.iter().enumerate() {
        let number = stations.iter().position(|s| s == station).unwrap_or_else(|| {
            stations.push(station.to_string());
            stations.len() - 1
        });
        list.push(Bus { name: name.to_string(), station: number as u32, kv, at: Some(at), line: i + 2 });
    }
    let end = |name: &str| buses.iter().position(|b| b.0 == name).unwrap() as i64;
    let rows = branches.iter().enumerate();
    let branches = rows
        .map(|(i, &(name, from, to, service))| Branch {
            name: name.to_string(),
            number: (i + 1).to_string(),
            from: end(from),
            to: end(to),
            service,
            more: More::default(),
            line: i + 2,
        })
        .collect();
    let (numbering, retired) = (Numbering::Rows, Vec::new());
    let (sources, notes) = (Vec::new(), Vec::new());
    Network { name: "net".to_string(), sources, stations, buses: list, branches, numbering, retired, part: None, notes }
}

const A: (&str, &str, f64, [f64; 2]) = ("A", "S", 66.0, [0.0, 0.0]);
const B: (&str, &str, f64, [f64; 2]) = ("B", "T", 66.0, [9.0, 5.0]);
const C: (&str, &str, f64, [f64; 2]) = ("C", "T", 66.0, [9.0, 5.0]);

/// The lines of the items between the network of A, B, C with L1 and L2, and another.
fn lines(buses: &[(&str, &str, f64, [f64; 2])], branches: &[(&str, &str, &str, u8)]) -> Vec<String> {
    let old = network(&[A, B, C], &[("L1", "A", "B", 1), ("L2", "A", "C", 0)]);
    items(&old, &network(buses, branches)).iter().map(line).collect()
}

const L1: (&str, &str, &str, u8) = ("L1", "A", "B", 1);
const L2: (&str, &str, &str, u8) = ("L2", "A", "C", 0);

#[test]
fn nothing_differs_whatever_the_order() {
    assert_eq!(lines(&[C, A, B], &[L2, L1]), [""; 0]);
    let same = network(&[A, B], &[L1]);
    assert_eq!(text(&items(&same, &same), &same, &same), "Nothing differs between net and net.\n");
}

#[test]
fn branches_that_differ() {
    let all = [A, B, C];
    for (branches, expected) in [
        (vec![L1], &["branch L2: removed (A to C, open)"][..]),
        (vec![L1, L2, ("L3", "B", "C", 1)], &["branch L3: added (B to C, in service)"]),
        (vec![("L1", "A", "B", 0), L2], &["branch L1: opened"]),
        (vec![L1, ("L2", "A", "C", 1)], &["branch L2: closed"]),
        (vec![("L1", "A", "C", 1), L2], &["branch L1: moved from B to C"]),
        (vec![("L1", "C", "A", 1), L2], &["branch L1: moved from B to C"]),
        (vec![("L1", "B", "A", 1), L2], &["branch L1: turned round, now B to A"]),
        (vec![L1, ("L2", "B", "B", 0)], &["branch L2: moved from A to B; moved from C to B"]),
        (vec![("M1", "A", "B", 1), L2], &["branch M1: renamed, was L1"]),
        (vec![("M1", "B", "A", 0), L2], &["branch M1: renamed, was L1; turned round, now B to A; opened"]),
        (
            vec![("M1", "A", "B", 1), ("M2", "A", "B", 1), L2],
            &[
                "branch M1: added (A to B, in service)",
                "branch M2: added (A to B, in service)",
                "branch L1: removed (A to B, in service)",
            ],
        ),
    ] {
        assert_eq!(lines(&all, &branches), expected);
    }
}

#[test]
fn buses_that_differ() {
    let both = [L1, L2];
    for (buses, expected) in [
        (vec![A, B, C, ("D", "T", 11.0, [9.0, 5.0])], &["bus D: added (T, 11 kV)"][..]),
        (vec![A, B, ("C", "S", 66.0, [9.0, 5.0])], &["bus C: moved from T to S"]),
        (vec![A, B, ("C", "T", 11.0, [9.0, 5.0])], &["bus C: voltage 11 kV, was 66 kV"]),
        (vec![A, B, ("C", "T", 66.0, [9.0, 5.5])], &["bus C: coordinates (9, 5.5), was (9, 5)"]),
        (vec![A, ("B", "U", 66.0, [9.0, 5.0]), ("C", "U", 66.0, [9.0, 5.0])], &["substation U: renamed, was T"]),
    ] {
        assert_eq!(lines(&buses, &both), expected);
    }
    let renamed = [A, B, ("C2", "T", 66.0, [9.0, 5.0])];
    assert_eq!(lines(&renamed, &[L1, ("L2", "A", "C2", 0)]), ["bus C2: renamed, was C"]);
    assert_eq!(lines(&[A, B], &[L1]), ["bus C: removed (T, 66 kV)", "branch L2: removed (A to C, open)"]);
    assert_eq!(
        lines(&[A, ("C", "S", 66.0, [0.0, 0.0])], &[L2]),
        [
            "substation T: removed",
            "bus C: moved from T to S; coordinates (0, 0), was (9, 5)",
            "bus B: removed (T, 66 kV)",
            "branch L1: removed (A to B, in service)"
        ]
    );
}

/// Two buses without branches that could each be the old one: neither is said to be.
#[test]
fn a_new_name_is_not_guessed() {
    let old = network(&[A, B], &[]);
    let new = network(&[A, ("X", "T", 66.0, [9.0, 5.0]), ("Y", "T", 66.0, [9.0, 5.0])], &[]);
    let said: Vec<String> = items(&old, &new).iter().map(line).collect();
    assert_eq!(said, ["bus X: added (T, 66 kV)", "bus Y: added (T, 66 kV)", "bus B: removed (T, 66 kV)"]);
}

#[test]
fn rows_and_counts() {
    let old = network(&[A, B, C], &[L1, L2]);
    let new = network(&[A, B, ("C", "T, \"new\"", 66.0, [9.0, 5.0])], &[("L1", "A", "C", 0), L2]);
    let items = items(&old, &new);
    assert_eq!(
        csv(&items),
        "item,name,change,before,after,old_line,new_line\n\
         substation,\"T, \"\"new\"\"\",added,,,,\n\
         bus,C,moved,T,\"T, \"\"new\"\"\",4,4\n\
         branch,L1,moved,B,C,2,2\n\
         branch,L1,opened,in service,open,2,2\n"
    );
    let last = text(&items, &old, &new).lines().last().unwrap().to_string();
    assert_eq!(last, "Different between net and net: 1 substations, 1 buses, 1 branches.");
}
