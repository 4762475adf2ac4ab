//! One HTML file of the sheet: the drawing, the index as tables, a search, and circuits that light up; nothing from elsewhere.
use crate::network::Network;
use crate::number::voltage;
use crate::plain::{one_line, visible};
use crate::sheet::svg::{self, Content, Node};
use crate::sheet::tables::Table;
use crate::sheet::{Leaf, Sheet};

const STYLE: &str = include_str!("page.css");
const SCRIPT: &str = include_str!("page.js");

/// Text with the characters that HTML keeps for itself written as references.
fn escaped(text: &str) -> String {
    text.replace('&', "&amp;").replace('<', "&lt;").replace('>', "&gt;").replace('"', "&quot;").replace('\n', "&#10;")
}

/// The page; the sheet's own text is the given one.
pub fn page(sheet: &Sheet, text: &str, network: &Network) -> String {
    let title = escaped(&title(&sheet.leaves[0]));
    let [wide, high] = sheet.leaves[0].size;
    let mut out = format!(
        "<!DOCTYPE html>\n<html lang=\"en\">\n<head>\n<meta charset=\"utf-8\">\n<title>{title}</title>\n\
         <style>\n{STYLE}@page {{ size: {}mm {}mm; margin: 0; }}\n</style>\n</head>\n<body>\n",
        svg::mm(wide),
        svg::mm(high)
    );
    out.push_str(&header(&title));
    out.push_str("<main>\n<div id=\"sheet\" tabindex=\"0\" role=\"region\" aria-label=\"Sheet\">\n");
    out.push_str(&inline(text));
    out.push_str("</div>\n<section id=\"index\" aria-label=\"Index\">\n");
    sheet.tables.iter().filter(|t| !t.rows.is_empty()).for_each(|t| out.push_str(&table(t, network)));
    out.push_str("</section>\n");
    for leaf in &sheet.leaves[1..] {
        out.push_str(&format!("<div class=\"page\" aria-hidden=\"true\">\n{}</div>\n", inline(&without_ids(leaf))));
    }
    out.push_str(&format!("</main>\n<script>\n{SCRIPT}</script>\n</body>\n</html>\n"));
    out
}

fn header(title: &str) -> String {
    let keys = "Enter lights the first that is found, arrow keys go through the rows, Escape clears";
    format!(
        "<header>\n<h1>{title}</h1>\n<div role=\"search\">\n<label for=\"search\">Search</label>\n\
         <input id=\"search\" type=\"search\" autocomplete=\"off\" aria-describedby=\"keys\"\n\
         placeholder=\"number, name, substation or isolator\">\n<span id=\"keys\" hidden>{keys}</span>\n</div>\n\
         <button id=\"smaller\" type=\"button\" aria-label=\"Smaller\">−</button>\n\
         <button id=\"larger\" type=\"button\" aria-label=\"Larger\">+</button>\n\
         <button id=\"print\" type=\"button\">Print</button>\n<p id=\"said\" role=\"status\"></p>\n</header>\n"
    )
}

fn title(leaf: &Leaf) -> String {
    let Content::Nodes(nodes) = &leaf.root.content else { return String::new() };
    let found = nodes.iter().find(|node| node.name == "title").map(|node| &node.content);
    match found {
        Some(Content::Text(text)) => text.clone(),
        _ => String::new(),
    }
}

/// A page's element without the XML declaration, as one picture with the name of its title.
fn inline(text: &str) -> String {
    let start = text.find("<svg").unwrap_or(0);
    text[start..].replacen("<svg ", "<svg role=\"img\" ", 1)
}

/// The text of a page of the index without ids, which the sheet has already.
fn without_ids(leaf: &Leaf) -> String {
    fn bare(node: &Node) -> Node {
        let attributes = node.attributes.iter().filter(|(name, _)| *name != "id").cloned().collect();
        let content = match &node.content {
            Content::Nothing => Content::Nothing,
            Content::Text(text) => Content::Text(text.clone()),
            Content::Title(text) => Content::Title(text.clone()),
            Content::Nodes(nodes) => Content::Nodes(nodes.iter().map(bare).collect()),
        };
        Node { name: node.name, attributes, content }
    }
    svg::file(&bare(&leaf.root))
}

/// A table of the index. Rows of branches light their circuits.
fn table(table: &Table, network: &Network) -> String {
    let mut out = format!("<table>\n<caption>{}</caption>\n<thead>\n<tr>", escaped(table.title));
    for column in &table.columns {
        out.push_str(&format!("<th scope=\"col\">{}</th>", escaped(column.head)));
    }
    out.push_str("</tr>\n</thead>\n<tbody>\n");
    for (i, (key, cells)) in table.rows.iter().enumerate() {
        for (_, heading) in table.groups.iter().filter(|(first, _)| *first == i) {
            let span = table.columns.len();
            out.push_str(&format!("<tr><th scope=\"rowgroup\" colspan=\"{span}\">{}</th></tr>\n", escaped(heading)));
        }
        match key.parse::<usize>().ok().filter(|_| table.key == "data-index") {
            Some(branch) => out.push_str(&branch_row(network, branch, cells)),
            None => {
                let cells: String = cells.iter().map(|cell| format!("<td>{}</td>", escaped(cell))).collect();
                out.push_str(&format!("<tr>{cells}</tr>\n"));
            }
        }
    }
    out + "</tbody>\n</table>\n"
}

/// A branch's row, with what it is found by, what it lights, and what is said of it.
fn branch_row(network: &Network, branch: usize, cells: &[String]) -> String {
    let row = &network.branches[branch];
    let buses: Vec<usize> = [row.from, row.to].into_iter().filter_map(|bus| network.known(bus)).collect();
    let stations: Vec<usize> = buses.iter().map(|&bus| network.buses[bus].station as usize).collect();
    let names: Vec<String> = stations.iter().map(|&station| one_line(&network.station_name(station))).collect();
    let list = |list: &[usize]| list.iter().map(usize::to_string).collect::<Vec<_>>().join(" ");
    let isolators = &row.more.switches;
    let found_by = [cells.join(" "), names.join(" "), isolators.join(" ")].join(" ").to_lowercase();
    let exact = [&row.number, &row.name, &isolators[0], &isolators[1]];
    let exact = exact.map(|text| one_line(text).to_lowercase()).join("\n");
    let attributes = [
        ("row", branch.to_string()),
        ("buses", list(&buses)),
        ("stations", list(&stations)),
        ("search", found_by),
        ("exact", exact),
        ("said", said(network, branch)),
    ];
    let attributes: String =
        attributes.iter().map(|(name, value)| format!(" data-{name}=\"{}\"", escaped(value))).collect();
    let number = escaped(&row.number);
    let label = escaped(&format!("{} {}", row.number, one_line(&row.name)));
    let first = format!(
        "<th scope=\"row\"><button type=\"button\" aria-pressed=\"false\" aria-label=\"{label}\">{number}</button></th>"
    );
    let rest: String = cells[1..].iter().map(|cell| format!("<td>{}</td>", escaped(cell))).collect();
    format!("<tr{attributes}>{first}{rest}</tr>\n")
}

/// A branch in words, as a screen reader says it.
fn said(network: &Network, branch: usize) -> String {
    let row = &network.branches[branch];
    let end = |bus: i64, isolator: &str| {
        let Some(bus) = network.known(bus) else { return "an unknown bus".to_string() };
        let bus = &network.buses[bus];
        let at = if isolator.is_empty() { String::new() } else { format!(", isolator {isolator}") };
        let station = network.station_name(bus.station as usize);
        one_line(&format!("{} at {station}, {}{at}", bus.name, voltage(bus.kv)))
    };
    let state = if row.service == 0 { "open" } else { "live" };
    let [one, two] = &row.more.switches;
    let name = visible(&one_line(&row.name));
    format!("{} {name}, {state}, from {} to {}", row.number, end(row.from, one), end(row.to, two))
}
