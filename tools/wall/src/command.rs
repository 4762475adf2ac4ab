//! The commands, and which options each has.

#[derive(Clone, Copy, Debug, PartialEq, Eq)]
pub enum Command {
    Draw,
    Audit,
    List,
    Compare,
    Check,
}

pub const COMMANDS: &str = "expected a command: draw, audit, list, compare or check";

/// Options without and with a value.
const FLAGS: [&str; 5] = ["--strict", "--y-up", "--allow-empty", "--anyway", "--as-asked"];
const VALUES: [&str; 28] = [
    "--around",
    "--hops",
    "--square",
    "--voltage",
    "--date",
    "--revision",
    "--revisions",
    "--drawn-by",
    "--checked-by",
    "--numbers-from",
    "-o",
    "--output",
    "--csv",
    "--title",
    "--paper",
    "--index-paper",
    "--tiles",
    "--colours",
    "--fill",
    "--search",
    "--iterations",
    "--tier-radius",
    "--tier-counts",
    "--tier-scales",
    "--bar-gap",
    "--padding",
    "--shortest-bar",
    "--buffer",
];

impl Command {
    const ALL: [Command; 5] = [Command::Draw, Command::Audit, Command::List, Command::Compare, Command::Check];

    pub fn named(word: &str) -> Option<Self> {
        Self::ALL.into_iter().find(|command| command.name() == word)
    }

    /// Whether there is a command that has an option.
    pub fn any_has(option: &str) -> bool {
        FLAGS.contains(&option) || VALUES.contains(&option)
    }

    /// Whether this command has an option.
    pub fn has(self, option: &str) -> bool {
        match option {
            "-o" | "--output" | "--title" | "--index-paper" | "--tiles" | "--colours" | "--anyway" | "--date"
            | "--revision" | "--revisions" | "--drawn-by" | "--checked-by" => {
                matches!(self, Command::Draw | Command::Compare)
            }
            "--around" | "--hops" | "--square" | "--voltage" => matches!(self, Command::Draw | Command::Audit),
            "--csv" => self == Command::Compare,
            "--strict" => matches!(self, Command::Draw | Command::Audit | Command::Check),
            "--paper" | "--as-asked" => matches!(self, Command::Draw | Command::Audit | Command::Compare),
            "--allow-empty" | "--numbers-from" => self != Command::List,
            _ => self != Command::Check,
        }
    }

    pub fn name(self) -> &'static str {
        match self {
            Command::Compare => "compare",
            Command::Check => "check",
            Command::Draw => "draw",
            Command::Audit => "audit",
            Command::List => "list",
        }
    }
}
