//! Draws substation networks for the wall, audits the drawings, and lists their pieces.
mod alike;
mod approval;
mod args;
mod check;
mod checksum;
mod choice;
mod colours;
mod command;
mod commands;
mod compare;
mod csv;
mod decode;
mod drawing;
mod export;
mod fault;
mod font;
mod grid;
mod guard;
mod held;
mod help;
mod lead;
mod leaves;
mod listing;
mod load;
mod mesh;
mod misread;
mod network;
mod number;
mod paper;
mod part;
mod pdf;
mod plain;
mod register;
mod remarks;
mod report;
mod save;
mod sheet;
mod web;
mod whole;

use args::{Settings, Wish};
use command::Command;
use fault::Fault;
use std::process::ExitCode;

fn main() -> ExitCode {
    let words = std::env::args_os().skip(1).map(|word| word.into_string());
    let answer = match words.collect::<Result<Vec<String>, _>>() {
        Ok(words) => run(&words),
        Err(word) => Err(Fault::Usage(format!("expected UTF-8 on the command line, found {}", word.to_string_lossy()))),
    };
    answer.unwrap_or_else(|fault| {
        eprintln!("wall: {fault}");
        ExitCode::from(2)
    })
}

fn run(words: &[String]) -> Result<ExitCode, Fault> {
    match args::parsed(words)? {
        Wish::Help => save::printed(help::HELP)?,
        Wish::Version => save::printed(help::VERSION)?,
        Wish::Run(mut settings) => {
            if let Some(file) = settings.revisions.clone() {
                settings.approval.read(&file)?;
            }
            return obey(&settings);
        }
    }
    Ok(ExitCode::SUCCESS)
}

fn obey(settings: &Settings) -> Result<ExitCode, Fault> {
    match settings.command {
        Command::List => return list(settings),
        Command::Check => return commands::check(settings),
        Command::Compare => return commands::compare(settings),
        Command::Draw | Command::Audit => {}
    }
    let network = read(settings)?;
    guard::has_rows(&network, settings)?;
    let colours = leaves::colours(settings)?;
    let network = part::asked(network, settings, &colours)?;
    let choice::Chosen { drawing, settings: chosen } = choice::drawn(&network, settings, &colours)?;
    let mut notes = report::notes(&network, &drawing);
    notes.extend(remarks::all(&network, &drawing));
    if settings.command == Command::Draw {
        let output = settings.output.as_deref().unwrap_or("-");
        save::not_input(output, &network)?;
        guard::has_places(&network, settings)?;
        guard::is_legible(&network, &drawing, settings)?;
    }
    let sheet = sheet::drawn(&network, &drawing, &chosen, &colours);
    if settings.command == Command::Draw {
        let text = leaves::checked(&sheet, &network)?;
        notes.extend(leaves::written(&sheet, text, &network, settings)?);
    } else {
        save::printed(&report::printed(&network, &drawing, &chosen, &sheet.doubts))?;
    }
    for note in notes {
        eprintln!("wall: {note}");
    }
    let flawed = drawing.flawed() || !sheet.doubts.is_empty();
    Ok(ExitCode::from(u8::from(settings.strict && flawed)))
}

fn read(settings: &Settings) -> Result<network::Network, Fault> {
    let mut network = load::network(&settings.network)?;
    if settings.y_up {
        network.turn_over();
    }
    keep_numbers(&mut network, settings)?;
    let notes = export::warn::all(&network, settings.y_up);
    network.notes.extend(notes);
    Ok(network)
}

/// Keeps the numbers that the settings name, with notes on what is new and what is retired.
pub fn keep_numbers(network: &mut network::Network, settings: &Settings) -> Result<(), Fault> {
    if let Some(word) = &settings.numbers_from {
        let notes = register::continued(network, &register::last(word)?, word)?;
        network.notes.extend(notes);
    }
    Ok(())
}

/// What `drawlist` would print, a refusal's line included.
fn list(settings: &Settings) -> Result<ExitCode, Fault> {
    let layout = read(settings)
        .and_then(|network| drawing::laid_out(&network, &choice::sized(&network, settings)?.options));
    match layout {
        Ok(layout) => {
            save::printed(&listing::written(&layout))?;
            Ok(ExitCode::SUCCESS)
        }
        Err(fault) => {
            if let Some(number) = fault.number() {
                save::printed(&format!("refused {number}\n"))?;
            }
            Err(fault)
        }
    }
}
