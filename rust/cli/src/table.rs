//! The table of commands. The parser, the help, the man page and the completions
//! are made of it.

use crate::args::Given;
use crate::commands::{
    catalogue, check, convert, diff, edit, entrances, info, later, list, measure, plot, restore,
    salvage, verify, view,
};
use crate::desk::{Desk, Outcome};

/// An option.
pub struct Flag {
    /// With its two dashes.
    pub long: &'static str,
    pub short: Option<char>,
    /// What its value is called, where it has one; `[=WORD]` where it may be left out.
    pub value: Option<&'static str>,
    pub words: &'static str,
}

impl Flag {
    /// Whether its value may be left out: then one stands behind `=` alone.
    pub fn optional(&self) -> bool {
        self.value.is_some_and(|value| value.starts_with("[="))
    }
}

/// A command.
pub struct Command {
    pub name: &'static str,
    /// The names that it takes.
    pub operands: &'static str,
    /// The least and the most of them.
    pub count: (usize, usize),
    pub words: &'static str,
    pub more: &'static str,
    pub example: &'static str,
    pub flags: &'static [Flag],
    pub run: fn(&Given, &mut Desk) -> Outcome,
}

const fn flag(long: &'static str, words: &'static str) -> Flag {
    Flag { long, short: None, value: None, words }
}

const fn valued(long: &'static str, value: &'static str, words: &'static str) -> Flag {
    Flag { long, short: None, value: Some(value), words }
}

/// What every command takes.
pub const COMMON: &[Flag] = &[
    flag("--json", "results as one JSON object a line"),
    Flag {
        long: "--quiet",
        short: Some('q'),
        value: None,
        words: "no results and no warnings: errors and the exit status alone",
    },
    valued("--color", "WHEN", "auto, always or never; NO_COLOR is heeded too"),
    Flag { long: "--help", short: Some('h'), value: None, words: "this text" },
];

pub const EXITS: &str = "Exit status: 0 good; 1 the answer is no (refused, different, older); \
    2 trouble (usage, input, output).";

pub const LIMITS: &str = "Files of up to 16 MiB (16,777,216 bytes), versions 3 to 8. \
    For Linux on x86-64. A file .cockledrift-*.part was left by a run that was cut off.";

/// The text of `--version`.
pub fn version() -> String {
    let (version, toolchain) = (env!("CARGO_PKG_VERSION"), env!("TOOLCHAIN"));
    format!("cockledrift {version}\nlibrary proved by rattle logic={toolchain}\n")
}

const OUTPUT: Flag = Flag {
    long: "--output",
    short: Some('o'),
    value: Some("FILE"),
    words: "where the result goes: a new file, or - for standard output",
};
const FORCE: Flag = flag("--force", "replace FILE where it is there already");

pub const COMMANDS: &[Command] = &[
    Command {
        name: "info",
        operands: "FILE..",
        count: (1, usize::MAX),
        words: "says what a file is",
        more: "Version, title, coordinate system, time to the second, records by kind, dates, and\n\
               whether the file is house-written (what the library itself writes, so that it can be edited).",
        example: "cockledrift info cave.3d",
        flags: &[],
        run: info::run,
    },
    Command {
        name: "list",
        operands: "FILE",
        count: (1, 1),
        words: "lists the records of a file",
        more: "A line a record, with its number: dates as dates, distances in metres, flags and styles in words.",
        example: "cockledrift list cave.3d",
        flags: &[
            flag("--raw", "the text of the proved lister, in numbers"),
            flag("--records", "the records alone, in the form that edit takes"),
            flag("--csv", "comma-separated values, with a line of names"),
        ],
        run: list::run,
    },
    Command {
        name: "check",
        operands: "PATH..",
        count: (1, usize::MAX),
        words: "says which files are good and where others are broken",
        more: "A line a file, and a closing count. Of a folder all files are looked at whose names end in .3d.",
        example: "cockledrift check archive",
        flags: &[flag("--strict", "each cross-section at a known station, each station at one place")],
        run: check::run,
    },
    Command {
        name: "later",
        operands: "A B",
        count: (2, 2),
        words: "says which of two files is later",
        more: "Both times to the second, and the difference in words. Exit status 0 where A is later than B;\n\
               1 where it is older or has the same second, or where a time cannot be read.",
        example: "cockledrift later new.3d old.3d && echo new.3d is the later one",
        flags: &[],
        run: later::run,
    },
    Command {
        name: "convert",
        operands: "IN",
        count: (1, 1),
        words: "writes a file as v8, or as v7 for older programs",
        more: "With --to 8 a v8 file never gets longer: no v8 file that says the same is shorter.\n\
               Warns where Survex's programs will read a date range a day longer, and of what v7 does not say.\n\
               What v7 cannot carry (an extended elevation, other styles than normal, anonymous stations\n\
               and stations on the wall) is refused, and nothing is written.",
        example: "cockledrift convert --to 8 old.3d -o new.3d",
        flags: &[valued("--to", "VERSION", "8 or 7"), OUTPUT, FORCE],
        run: convert::run,
    },
    Command {
        name: "salvage",
        operands: "FILE",
        count: (1, 1),
        words: "saves what can be read of a damaged file, as v8",
        more: "All records before the first broken item. None is made up or changed.",
        example: "cockledrift salvage cut.3d -o saved.3d",
        flags: &[OUTPUT, FORCE],
        run: salvage::run,
    },
    Command {
        name: "measure",
        operands: "FILE",
        count: (1, 1),
        words: "says how far a survey reaches and how long it is",
        more: "The length along the legs lies between the two numbers: each leg is rounded down to\n\
               centimetres for the one and up for the other.",
        example: "cockledrift measure cave.3d --survey cave.upper",
        flags: &[valued("--survey", "NAME", "the legs of this survey and of those in it; else all")],
        run: measure::run,
    },
    Command {
        name: "entrances",
        operands: "FILE",
        count: (1, 1),
        words: "says how many entrances a stretch of records holds and where the next one is",
        more: "Each entrance of the stretch with its record's number, name and place, and the next one at or\n\
               after --from, even past --to. Record numbers are those of list.",
        example: "cockledrift entrances cave.3d --from 100 --to 200",
        flags: &[
            valued("--from", "A", "the first record of the stretch; 0 where it is not given"),
            valued("--to", "B", "the record behind the stretch; else the count of all"),
        ],
        run: entrances::run,
    },
    Command {
        name: "catalogue",
        operands: "DIR",
        count: (1, 1),
        words: "writes down what an archive holds",
        more: "Sorted and tab-separated: SHA-256, bytes, time in UTC, time line, version, records, title, path\n\
               and marks: 'same minute' as another file and not the same second, 'older' than another\n\
               file of the same title or the 'latest' of them, 'refused' with its number. Other bytes than\n\
               text are \\xNN. All files count whose names end in .3d.",
        example: "cockledrift catalogue archive -o archive.tsv",
        flags: &[
            flag("--sums", "SHA-256 and path alone, as sha256sum -c reads them"),
            OUTPUT,
            FORCE,
        ],
        run: catalogue::run,
    },
    Command {
        name: "verify",
        operands: "CATALOGUE",
        count: (1, 1),
        words: "says which files of an archive are missing, changed, moved or new",
        more: "By their SHA-256: most changed bytes leave a 3d file that still reads.\n\
               The folder is the one that the catalogue was made of, unless --folder names another.\n\
               A catalogue of which a part is missing is not taken.",
        example: "cockledrift verify archive.tsv",
        flags: &[valued("--folder", "DIR", "where the archive is now")],
        run: verify::run,
    },
    Command {
        name: "restore",
        operands: "FROM TO",
        count: (2, 2),
        words: "puts a file back into its place, unless a later one is there",
        more: "Refuses where TO is later, where a time cannot be read, and where the times are the same\n\
               and the bytes are not. The replaced file is kept beside TO, under its own time. Where there\n\
               is no TO, nothing is judged: a damaged file of the same time is moved away first. A link is\n\
               followed. TO keeps its owner, group and mode.",
        example: "cockledrift restore archive/cave.3d cave.3d",
        flags: &[
            flag("--even-if-older", "also where TO is later"),
            flag("--even-if-unknown", "also where a time cannot be read"),
            flag("--dry-run", "say what would be done, and do nothing"),
        ],
        run: restore::run,
    },
    Command {
        name: "diff",
        operands: "A B",
        count: (2, 2),
        words: "says which records two files do not have in common",
        more: "Records added, removed and changed, with their numbers in A and in B, and what differs in\n\
               the headers. A record is changed where one of the same kind and name stands in its place.\n\
               How the bytes are put does not count: a file and its conversion do not differ.",
        example: "cockledrift diff old.3d new.3d",
        flags: &[],
        run: diff::run,
    },
    Command {
        name: "edit",
        operands: "FILE",
        count: (1, 1),
        words: "replaces records of a file that was written here",
        more: "Takes out --count records from record --at on and puts those of --with there. All other\n\
               records stay as they are. Other files are refused (14): convert them first.",
        example: "cockledrift edit cave.3d --at 12 --count 1 --with records.txt -o new.3d",
        flags: &[
            valued("--at", "N", "the first record to replace; the count of all is the end"),
            valued("--count", "K", "how many records go; 0 where it is not given"),
            valued("--with", "RECORDS", "a file of records as list --records prints them, or -"),
            OUTPUT,
            FORCE,
        ],
        run: edit::run,
    },
    Command {
        name: "plot",
        operands: "FILE",
        count: (1, 1),
        words: "draws a plan or an elevation to scale, as an SVG picture",
        more: "On the smallest paper from A4 to A0 that it fits; where not even A0 is large enough, at the\n\
               next scale at which it is. With a scale bar, the entrances, and station names where they fit.",
        example: "cockledrift plot --plan --scale 1:1000 cave.3d -o cave.svg",
        flags: &[
            flag("--plan", "from above, north up"),
            valued("--elevation", "[=BEARING]", "from the side, looking this way: degrees from north over east, else 0"),
            valued("--scale", "1:N", "1:500 where it is not given"),
            valued("--survey", "NAME", "the legs of this survey and of those in it; else all"),
            OUTPUT,
            FORCE,
        ],
        run: plot::run,
    },
    Command {
        name: "view",
        operands: "FILE",
        count: (1, 1),
        words: "makes a page on which a cave can be turned, in one file",
        more: "Any browser shows it, from the file and without a network: turn, pan and zoom; colours by depth,\n\
               survey, date or style; names by a click or a search; distances between stations.",
        example: "cockledrift view cave.3d -o cave.html",
        flags: &[OUTPUT, FORCE],
        run: view::run,
    },
];
