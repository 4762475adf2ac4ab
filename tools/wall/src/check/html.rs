//! A page for a browser: its sheet is looked at as every sheet is; its index has to be that of the network, and it takes nothing
//! from elsewhere.
use super::xml::{elements, Element};
use crate::network::Network;
use std::collections::BTreeMap;

/// How a page begins, and how it would take something from elsewhere.
const BEGIN: &str = "<!doctype html";
const FOREIGN: [&str; 6] = [" src=\"", " href=\"", "@import", "url(", "<link", "<iframe"];

pub struct Page<'a> {
    pub sheet: &'a str,
    text: &'a str,
}

/// The parts of a page; none where a text isn't one.
pub fn split(text: &str) -> Option<Page<'_>> {
    let head = text.trim_start().get(..BEGIN.len())?;
    let (start, end) = (text.find("<svg")?, text.find("</svg>")?);
    let sheet = text.get(start..end + "</svg>".len())?;
    head.eq_ignore_ascii_case(BEGIN).then_some(Page { sheet, text })
}

impl Page<'_> {
    /// What is wrong with the page round its sheet.
    pub fn findings(&self, network: &Network) -> Vec<String> {
        let mut found: Vec<String> = Vec::new();
        for mark in FOREIGN.iter().filter(|mark| self.text.contains(**mark)) {
            found.push(format!("the page takes something from elsewhere: '{}'", mark.trim()));
        }
        let branches = self.text.split("<table>").skip(1).find(|part| part.contains(" data-row=\""));
        let table = branches.and_then(|part| part.split_once("</table>")).map(|(inside, _)| inside);
        let rows = table.map_or(String::new(), |inside| format!("<table>{inside}</table>"));
        match elements(&rows, "the page's index") {
            Ok(elements) => found.extend(rows_of(&elements, network)),
            Err(fault) if !network.branches.is_empty() => found.push(fault.to_string()),
            Err(_) => {}
        }
        found
    }
}

/// Where the rows aren't those of the branches, each once.
fn rows_of(elements: &[Element<'_>], network: &Network) -> Vec<String> {
    let mut found = Vec::new();
    let mut rows: BTreeMap<usize, Vec<String>> = BTreeMap::new();
    for (i, element) in elements.iter().enumerate() {
        let Some(branch) = element.attribute("data-row") else { continue };
        let cells = elements.iter().filter(|e| e.name == "td" && e.parent == Some(i)).map(|e| e.text.to_string());
        let number =
            elements.iter().find(|e| e.name == "button" && e.parent.is_some_and(|p| elements[p].parent == Some(i)));
        let mut texts = vec![number.map_or(String::new(), |e| e.text.to_string())];
        texts.extend(cells.take(3));
        texts.push(element.attribute("data-buses").unwrap_or("").to_string());
        let known = branch.parse::<usize>().ok().filter(|branch| *branch < network.branches.len());
        match known.map(|branch| rows.insert(branch, texts)) {
            Some(None) => {}
            Some(Some(_)) => found.push(format!("the page's index has the branch number {branch} twice")),
            None => found.push(format!("the page's index has a row of '{branch}', which the network hasn't")),
        }
    }
    let words = |text: &str| text.split_whitespace().collect::<Vec<_>>().join(" ");
    for (e, branch) in network.branches.iter().enumerate() {
        let row = network.branch_row(e);
        let Some(texts) = rows.get(&e) else {
            found.push(format!("{row} has no row in the page's index"));
            continue;
        };
        let buses: Vec<usize> = [branch.from, branch.to].into_iter().filter_map(|bus| network.known(bus)).collect();
        let numbers: Vec<String> = buses.iter().map(usize::to_string).collect();
        let mut wanted = vec![words(&crate::plain::visible(&branch.name))];
        wanted.extend(buses.iter().map(|&bus| words(&crate::plain::visible(&network.buses[bus].name))));
        let said: Vec<String> = texts[1..texts.len() - 1].iter().map(|text| words(text)).collect();
        if buses.len() == 2 && said != wanted || texts.last() != Some(&numbers.join(" ")) {
            found.push(format!("{row} has another name or other buses in the page's index"));
        }
        let own = network.numbering == crate::network::Numbering::Rows || texts[0] == branch.number;
        if texts[0].is_empty() || !own {
            found.push(format!("{row} has the number '{}' in the page's index", texts[0]));
        }
    }
    found
}
