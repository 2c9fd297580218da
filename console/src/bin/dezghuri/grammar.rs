//! The commands, said once: what their words may be, and what the help tells of them.

/// A command that takes words.
pub struct Grammar {
    pub name: &'static str,
    /// The ways to call it: the words after its name, and what it does then.
    pub calls: &'static [(&'static str, &'static str)],
    pub options: &'static [Opt],
    pub example: &'static str,
}

/// An option, with a word after it or alone.
pub struct Opt {
    pub name: &'static str,
    /// What stands for the word after it; a flag has none.
    pub word: Option<&'static str>,
    pub may_repeat: bool,
    pub what: &'static str,
}

/// Asks for an object in the place of a text.
pub const JSON: &str = "--json";
/// Asks for the boxes with the staged changes.
pub const STAGED: &str = "--staged";
/// Takes a former layout that is not what was written under its name.
pub const ANYWAY: &str = "--damaged-anyway";
/// Gives a box its ceiling: a new one that is staged, or one of the file for a try.
pub const CEILING: &str = "--ceiling";
/// Ends the options: what comes after it are plain words.
pub const END: &str = "--";

/// All of them, in the order of the help.
pub const COMMANDS: &[Grammar] = &[
    Grammar {
        name: "plan",
        calls: &[
            (
                "FILE [--staged] [--former LAST] [--out NEXT] [--allowance N] [--replace] \
                 [--damaged-anyway]",
                "plans the cluster that FILE describes, starting from the layout LAST, and writes \
                 the layout to NEXT; N improvements at most (0 to 65535; without it as many as it \
                 takes: then it is the first layout, by its rows, of those of the largest size \
                 that need the fewest transfers)",
            ),
            (
                "--record RECORD",
                "plans a cluster record and prints what the program `plan` prints, for scripts; - \
                 is standard input",
            ),
        ],
        options: &[
            FORMER,
            option("--out", "NEXT", "writes the layout there, once the report is printed"),
            option("--allowance", "N", "makes N improvements at most, 0 to 65535"),
            flag(
                "--replace",
                "replaces a layout that is there already; it is kept as NEXT.old. Without it only \
                 the --former of this plan is replaced",
            ),
            flag(
                ANYWAY,
                "starts from LAST though it is not what was written there, by FILE.history",
            ),
            option("--record", "RECORD", "plans a cluster record; no other words go with it"),
            WITH_STAGED,
            AS_JSON,
        ],
        example: "dezghuri plan shop.txt --former shop.layout --out next.layout",
    },
    Grammar {
        name: "check",
        calls: &[(
            "FILE LAYOUT",
            "says whether LAYOUT is valid for the cluster that FILE describes",
        )],
        options: &[WITH_STAGED, AS_JSON],
        example: "dezghuri check shop.txt shop.layout",
    },
    Grammar {
        name: "show",
        calls: &[(
            "FILE LAYOUT [PARTITION | --box ID | --all]",
            "shows what the boxes hold; or which boxes hold one partition, which partitions one \
             box holds, or all of it; a layout of other boxes is shown too, with the boxes that \
             are not there any more",
        )],
        options: &[
            option("--box", "ID", "shows which partitions this box holds"),
            flag("--all", "shows the row of each partition"),
            WITH_STAGED,
            AS_JSON,
        ],
        example: "dezghuri show shop.txt shop.layout --box 3",
    },
    Grammar {
        name: "loss",
        calls: &[(
            "FILE LAYOUT",
            "tells how many partitions are lost at worst with one to four boxes, and which boxes \
             these are; and what each zone costs that is lost whole",
        )],
        options: &[WITH_STAGED, AS_JSON],
        example: "dezghuri loss shop.txt shop.layout",
    },
    Grammar {
        name: "diff",
        calls: &[(
            "FILE OLD NEW",
            "shows what comes and goes from the layout OLD to the layout NEW, by box and by zone",
        )],
        options: &[WITH_STAGED, AS_JSON],
        example: "dezghuri diff shop.txt shop.layout next.layout",
    },
    Grammar {
        name: "moves",
        calls: &[(
            "FILE OLD NEW [--by-box] [--done N]",
            "lists the transfers from the layout OLD to the layout NEW one after another, or makes \
             a list for each box; with --done what is left after the first N steps. It may be \
             stopped after any step: each partition then has all its old copies that are left, or \
             all its new ones",
        )],
        options: &[
            flag("--by-box", "makes a list for each box"),
            option("--done", "N", "lists what is left after the first N steps"),
            WITH_STAGED,
            AS_JSON,
        ],
        example: "dezghuri moves shop.txt shop.layout next.layout --done 37",
    },
    Grammar {
        name: "certify",
        calls: &[(
            "FILE [--former OLD] NEW [--out CERT]",
            "shows, with sums that anybody can check by hand, that no layout has a larger size than \
             NEW, and none of that size sends fewer copies from the layout OLD; writes the prices \
             in these sums to CERT",
        )],
        options: &[
            option(
                "--former",
                "OLD",
                "the layout before; without it no box held anything",
            ),
            option(
                "--out",
                "CERT",
                "writes the prices there, for the program certificate.py, which checks them",
            ),
            WITH_STAGED,
            AS_JSON,
        ],
        example: "dezghuri certify shop.txt --former shop.layout next.layout --out shop.prices",
    },
    Grammar {
        name: "what-if",
        calls: &[(
            "FILE [--former LAST] CHANGE ..",
            "shows what changes of the boxes would bring, each alone and all together: size, gain \
             and copies to send; nothing is written. A CHANGE is --add \"ZONE CAPACITY [NAME]\", \
             --remove ID, --resize ID=CAPACITY or --ceiling ID=N",
        )],
        options: &[
            FORMER,
            repeated("--add", "\"ZONE CAPACITY [NAME]\"", "tries a box more"),
            repeated("--remove", "ID", "tries a box less"),
            repeated("--resize", "ID=CAPACITY", "tries another disk in a box"),
            repeated(
                CEILING,
                "ID=N",
                "tries another ceiling for a box, 0 to 256, which is none",
            ),
            AS_JSON,
        ],
        example: "dezghuri what-if shop.txt --former shop.layout --add \"attic 4T\" --resize 3=8T",
    },
    Grammar {
        name: "stage",
        calls: &[
            (
                "FILE CHANGE",
                "stages a change of the boxes, to be planned and applied with others; FILE stays \
                 as it is. A CHANGE is add ID ZONE CAPACITY [NAME ..] [--ceiling N], remove ID or \
                 resize ID CAPACITY",
            ),
            ("FILE", "shows what is staged"),
        ],
        options: &[
            option(CEILING, "N", "gives a new box its ceiling, 0 to 256"),
            AS_JSON,
        ],
        example: "dezghuri stage shop.txt add 7 attic 4T new box",
    },
    Grammar {
        name: "undo",
        calls: &[(
            "FILE",
            "takes the last staged change back, and called again the one before it",
        )],
        options: &[AS_JSON],
        example: "dezghuri undo shop.txt",
    },
    Grammar {
        name: "apply",
        calls: &[(
            "FILE",
            "writes what is staged into FILE, remarks kept; the old one is FILE.old",
        )],
        options: &[AS_JSON],
        example: "dezghuri apply shop.txt",
    },
    Grammar {
        name: "history",
        calls: &[(
            "FILE",
            "lists the layouts that were written for FILE: when, what changed, and whether each is \
             still there",
        )],
        options: &[AS_JSON],
        example: "dezghuri history shop.txt",
    },
    Grammar {
        name: "report",
        calls: &[(
            "FILE [LAYOUT] [--former LAST] --out PAGE",
            "writes a page that shows LAYOUT, and what moves from the layout LAST: bars, a map and \
             tables, for a browser or a printer; without LAYOUT it shows what a plan of FILE comes \
             to",
        )],
        options: &[
            FORMER,
            option("--out", "PAGE", "writes the page there"),
            WITH_STAGED,
        ],
        example: "dezghuri report shop.txt next.layout --former shop.layout --out shop.html",
    },
    Grammar {
        name: "record",
        calls: &[(
            "FILE [--former LAST] [--out RECORD]",
            "writes the cluster record that the program `plan` reads",
        )],
        options: &[
            FORMER,
            option("--out", "RECORD", "writes it there, and not to standard output"),
        ],
        example: "dezghuri record shop.txt --former shop.layout --out shop.record",
    },
];

const FORMER: Opt = option(
    "--former",
    "LAST",
    "starts from this layout; without it there was none before",
);

const WITH_STAGED: Opt = flag(STAGED, "takes the boxes with all staged changes made");

const AS_JSON: Opt = flag(JSON, "prints one JSON object in the place of a text");

const fn flag(name: &'static str, what: &'static str) -> Opt {
    Opt {
        name,
        word: None,
        may_repeat: false,
        what,
    }
}

const fn option(name: &'static str, word: &'static str, what: &'static str) -> Opt {
    Opt {
        word: Some(word),
        ..flag(name, what)
    }
}

/// An option that may come several times.
const fn repeated(name: &'static str, word: &'static str, what: &'static str) -> Opt {
    Opt {
        may_repeat: true,
        ..option(name, word, what)
    }
}

/// The command of this name.
pub fn command(name: &str) -> Option<&'static Grammar> {
    COMMANDS.iter().find(|command| command.name == name)
}

impl Grammar {
    pub fn option(&self, name: &str) -> Option<&'static Opt> {
        self.options.iter().find(|option| option.name == name)
    }
}
