//! The files of a sheet: one PDF file, or an SVG file for the sheet and one for each page of its index.
use crate::args::Settings;
use crate::check;
use crate::colours::Colours;
use crate::fault::Fault;
use crate::load;
use crate::network::Network;
use crate::number::thousands;
use crate::pdf;
use crate::save;
use crate::sheet::{svg, Sheet};
use crate::web;
use std::path::Path;

/// The colours of voltages, changed by the file that the settings name.
pub fn colours(settings: &Settings) -> Result<Colours, Fault> {
    match &settings.colours {
        Some(name) => Colours::read(&load::opened(Path::new(name))?, name),
        None => Ok(Colours::default()),
    }
}

/// The files by name, and remarks. The sheet's own text is the given one.
pub fn files(
    sheet: &Sheet,
    text: String,
    network: &Network,
    settings: &Settings,
) -> (Vec<(String, Vec<u8>)>, Vec<String>) {
    let name = settings.output.as_deref().unwrap_or("-");
    let mut notes = sheet.notes.clone();
    if settings.html() {
        return (vec![(name.to_string(), web::page(sheet, &text, network).into_bytes())], notes);
    }
    if settings.pdf() {
        let (bytes, missing) = pdf::written(sheet, settings.tiles);
        notes.extend(missing.first().map(|c| {
            let count = thousands(missing.len());
            format!(
                "note: characters that the PDF's font hasn't, shown as boxes: {count}, the first is U+{:04X}",
                *c as u32
            )
        }));
        return (vec![(name.to_string(), bytes)], notes);
    }
    let pages = sheet.leaves.iter().skip(1).map(|leaf| svg::file(&leaf.root));
    let texts = std::iter::once(text).chain(pages).enumerate();
    (texts.map(|(i, text)| (page_name(name, i), text.into_bytes())).collect(), notes)
}

/// Checks the sheet; gives its text.
pub fn checked(sheet: &Sheet, network: &Network) -> Result<String, Fault> {
    let text = svg::file(&sheet.leaves[0].root);
    check::passed(&text, network)?;
    Ok(text)
}

/// Writes them all, or none; gives remarks.
pub fn written(sheet: &Sheet, text: String, network: &Network, settings: &Settings) -> Result<Vec<String>, Fault> {
    let name = settings.output.as_deref().unwrap_or("-");
    let (files, mut notes) = files(sheet, text, network, settings);
    if name == "-" {
        save::written(name, &files[0].1)?;
        notes.extend((files.len() > 1).then(|| {
            let count = thousands(files.len() - 1);
            format!("note: pages of the index not written to standard output: {count}; -o FILE writes them beside it")
        }));
        return Ok(notes);
    }
    save::all_written(&files)?;
    let next = page_name(name, files.len().max(1));
    let stale = !settings.pdf() && !settings.html() && Path::new(&next).exists();
    notes.extend(stale.then(|| format!("note: {next} is there from an earlier run and isn't part of this sheet")));
    Ok(notes)
}

/// The name of the sheet's file, or of a page of its index: sheet-index.svg, sheet-index-2.svg.
fn page_name(name: &str, page: usize) -> String {
    let path = Path::new(name);
    let stem = path.file_stem().map_or_else(String::new, |stem| stem.to_string_lossy().into_owned());
    let ending = path.extension().map_or_else(String::new, |end| format!(".{}", end.to_string_lossy()));
    match page {
        0 => name.to_string(),
        1 => path.with_file_name(format!("{stem}-index{ending}")).to_string_lossy().into_owned(),
        _ => path.with_file_name(format!("{stem}-index-{page}{ending}")).to_string_lossy().into_owned(),
    }
}

#[cfg(test)]
mod tests {
    use super::page_name;

    #[test]
    fn names_of_pages() {
        assert_eq!([0, 1, 2].map(|i| page_name("a/b.svg", i)), ["a/b.svg", "a/b-index.svg", "a/b-index-2.svg"]);
        assert_eq!(page_name("plot", 1), "plot-index");
    }
}
