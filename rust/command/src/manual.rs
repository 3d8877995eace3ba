//! The manual pages: the command in section 1, the library in section 3, the sheets in section 5.

mod library;
mod roff;

use crate::commands::{self, Command};
use crate::help::{options, SHEETS, STATUS, SUMMARY};
pub use library::library;
use roff::{bold, escaped, paragraphs};

/// Returns the line that begins a page.
fn title(section: u8, what: &str) -> String {
    let version = env!("CARGO_PKG_VERSION");
    format!(".TH SITGURP {section} \"\" \"sitgurp {version}\" \"{what}\"\n")
}

/// Returns the page of the command, made from the list of commands that `--help` uses.
pub fn command() -> String {
    let mut page = title(1, "User Commands");
    page += ".SH NAME\nsitgurp \\- tables of shades and trees of two-input gates\n";
    page += ".SH SYNOPSIS\n.B sitgurp\n.I COMMAND\n.RI [ SHEET \" ..]\"\n.RI [ OPTION \" ..]\"\n";
    page += &format!(
        ".SH DESCRIPTION\n{}.PP\n{}",
        paragraphs(SUMMARY),
        paragraphs(SHEETS)
    );
    page += ".SH COMMANDS\n";
    for command in commands::ALL {
        page += &of_command(command);
    }
    page += &format!(".SH EXIT STATUS\n{}", paragraphs(STATUS));
    page += ".SH ENVIRONMENT\n.TP\n.B SITGURP_AS\nWhat the command is called in its messages, in place of \\(lqsitgurp\\(rq.\n";
    page += EXAMPLES;
    page += ".SH SEE ALSO\n.BR sitgurp (5)\nfor the sheets,\n.BR sitgurp (3)\nfor the library\n";
    page
}

fn of_command(command: &Command) -> String {
    let usage = format!("{} {}", command.name, command.usage);
    let mut section = format!(".SS {}\n", escaped(usage.trim_end()));
    let (first, rest) = command.summary.split_at(1);
    section += &format!("{}{}.\n", first.to_uppercase(), escaped(rest));
    section += &format!(".PP\n{}", paragraphs(command.help));
    for option in options(command) {
        section += &format!(
            ".TP\n{}\n{}",
            bold(&option.term()),
            paragraphs(&option.says)
        );
    }
    section
}

const EXAMPLES: &str = "\
.SH EXAMPLES
.PP
The tree of a table, and the table of that tree:
.PP
.nf
.RS
sitgurp make mine.table \\-o mine.net
sitgurp table mine.net
.RE
.fi
.PP
What to change in a table that has no tree:
.PP
.nf
.RS
sitgurp why mine.table
.RE
.fi
.PP
A table from a spreadsheet:
.PP
.nf
.RS
sitgurp tidy \\-\\-csv export.csv \\-o mine.table
.RE
.fi
.PP
Many tables at once, on all cores:
.PP
.nf
.RS
sitgurp make \\-d nets *.table
.RE
.fi
.PP
A stream of calls under GNU parallel:
.PP
.nf
.RS
parallel \\-\\-pipe \\-\\-keep\\-order sitgurp stream \\-\\-jobs 1 < calls > answers
.RE
.fi
";

/// Returns the page of the sheets.
pub fn sheets() -> String {
    title(5, "File Formats") + include_str!("../man/sitgurp.5")
}
