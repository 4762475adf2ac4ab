//! The commands that read a finished sheet or two networks.
use crate::args::Settings;
use crate::check;
use crate::choice;
use crate::compare::table::Table;
use crate::compare::{items, marks, renumbered, words, Item};
use crate::decode;
use crate::export;
use crate::fault::Fault;
use crate::guard;
use crate::leaves;
use crate::load;
use crate::network::Network;
use crate::part;
use crate::register;
use crate::remarks;
use crate::report;
use crate::save;
use crate::sheet;
use std::path::Path;
use std::process::ExitCode;

/// Whether a sheet shows its network: prints what is wrong, or what is there.
pub fn check(settings: &Settings) -> Result<ExitCode, Fault> {
    let file = &settings.other;
    let bytes = load::opened(Path::new(file))?;
    let text = decode::text(&bytes, file)?;
    let page = check::html::split(text);
    let reading = check::reading::read(page.as_ref().map_or(text, |page| page.sheet), file)?;
    let mut network = load::network(&settings.network)?;
    guard::has_rows(&network, settings)?;
    crate::keep_numbers(&mut network, settings)?;
    if let Some(buses) = reading.part() {
        network = part_of(&network, &buses, file)?;
    }
    let mut found = check::findings(&reading, &network);
    found.wrong.extend(page.iter().flat_map(|page| page.findings(&network)));
    for source in network.sources.iter().filter(|source| !reading.was_drawn_from(&source.name, &source.sha256)) {
        eprintln!("wall: note: the sheet doesn't say that it was drawn from this {}", source.path);
    }
    let mut lines: String = found.wrong.iter().map(|line| format!("{file}: {line}\n")).collect();
    lines.extend(found.doubts.iter().map(|line| format!("{file}: may be misread: {line}\n")));
    if found.wrong.is_empty() {
        lines.push_str(&check::summary(&reading, found.doubts.len()));
    }
    save::printed(&lines)?;
    let sound = found.wrong.is_empty() && (found.doubts.is_empty() || !settings.strict);
    Ok(ExitCode::from(u8::from(!sound)))
}

/// The part of a network that a sheet says it shows.
fn part_of(network: &Network, buses: &[usize], file: &str) -> Result<Network, Fault> {
    if buses.windows(2).any(|two| two[0] >= two[1]) || buses.last().is_none_or(|&last| last >= network.buses.len()) {
        let count = network.buses.len();
        return Err(Fault::file(file, format!("expected a part of the network's {count} buses, in their order")));
    }
    let part = part::of(network, buses, "as the sheet says".to_string());
    eprintln!("wall: {}", part.notes[part.notes.len() - 1]);
    Ok(part)
}

/// What differs between two networks: printed, and where it is asked for as rows and on a sheet of the new one.
pub fn compare(settings: &Settings) -> Result<ExitCode, Fault> {
    let mut old = load::network(&settings.other)?;
    let mut new = load::network(&settings.network)?;
    let notes = export::warn::all(&new, settings.y_up);
    new.notes.extend(notes);
    for network in [&old, &new] {
        guard::has_rows(network, settings)?;
        let files = [&settings.output, &settings.csv].into_iter().flatten();
        files.map(|file| save::not_input(file, network)).collect::<Result<(), Fault>>()?;
    }
    if let Some(word) = &settings.numbers_from {
        register::continued(&mut old, &register::last(word)?, word)?;
        let notes = register::continued(&mut new, &register::of(&old), word)?;
        new.notes.extend(notes);
    }
    let (items, renumbered) = (items(&old, &new), renumbered(&old, &new));
    let text = words::text(&items, &old, &new) + &words::numbers(&renumbered, &new);
    let mut files: Vec<(String, Vec<u8>)> = Vec::new();
    let mut notes = Vec::new();
    if settings.output.is_some() {
        if settings.y_up {
            new.turn_over();
        }
        let (sheet, remarks) = marked(&old, &new, &items, settings)?;
        let (sheets, more) = leaves::files(&sheet, leaves::checked(&sheet, &new)?, &new, settings);
        files.extend(sheets);
        notes.extend(remarks.into_iter().chain(more));
    }
    files.extend(
        settings
            .csv
            .iter()
            .map(|csv| (csv.clone(), words::csv(&[items.as_slice(), &renumbered].concat()).into_bytes())),
    );
    save::all_written(&files)?;
    for note in notes {
        eprintln!("wall: {note}");
    }
    save::printed(&text)?;
    Ok(ExitCode::from(u8::from(!items.is_empty() || !renumbered.is_empty())))
}

/// The sheet of the new network with what differs marked and listed on it, and remarks.
fn marked(
    old: &Network,
    new: &Network,
    items: &[Item],
    settings: &Settings,
) -> Result<(sheet::Sheet, Vec<String>), Fault> {
    let colours = leaves::colours(settings)?;
    let choice::Chosen { drawing, settings: chosen } = choice::drawn(new, settings, &colours)?;
    guard::has_places(new, settings)?;
    guard::is_legible(new, &drawing, settings)?;
    // Its width, with squares as long as they can be.
    let table = Table::new(items, [old, new], settings.paper, &|_| "H12–H12".to_string());
    let (mut sheet, panel) = sheet::drawn_beside(new, &drawing, &chosen, &colours, &|height| table.width(height));
    marks::mark(&mut sheet.leaves[0].root, items, [old, new], settings.paper, &panel)?;
    let notes = report::notes(new, &drawing).into_iter().chain(remarks::all(new, &drawing)).collect();
    Ok((sheet, notes))
}
