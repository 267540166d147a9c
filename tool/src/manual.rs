//! The commands, their options and the help text: what the command line takes is read from here as well.

pub struct Command {
    pub name: &'static str,
    operands: &'static str,
    about: &'static str,
    /// What it takes of `OPTIONS`.
    pub options: &'static [&'static str],
}

pub struct Choice {
    pub name: &'static str,
    pub short: &'static str,
    /// What stands behind it, if anything.
    pub value: Option<&'static str>,
    about: &'static str,
}

pub const COMMANDS: &[Command] = &[
    Command {
        name: "pack",
        operands: "[FILE]",
        about: "lines to records, each as it stands: no rule is checked",
        options: &["--text", "--output"],
    },
    Command {
        name: "show",
        operands: "[FILE]",
        about: "records to lines; `pack` makes the same bytes of them",
        options: &["--records", "--output"],
    },
    Command {
        name: "squeeze",
        operands: "[FILE]",
        about: "a feed to the smallest table that forwards every address alike, with figures on standard error",
        options: &["--text", "--records", "--to", "--slots", "--quiet", "--output"],
    },
    Command {
        name: "lookup",
        operands: "ADDRESS.. [FILE]",
        about: "the hop of each address by longest match, or that it is discarded, once the feed is applied",
        options: &["--text", "--records", "--table", "--slots", "--output"],
    },
];

pub const OPTIONS: &[Choice] = &[
    Choice {
        name: "--text",
        short: "",
        value: None,
        about: "the feed is text, whatever it looks like",
    },
    Choice {
        name: "--records",
        short: "",
        value: None,
        about: "the feed is records, whatever it looks like",
    },
    Choice {
        name: "--to",
        short: "",
        value: Some("FORM"),
        about: "write `text` (if nothing is said) or `records`",
    },
    Choice {
        name: "--slots",
        short: "",
        value: Some("N"),
        about: "lend exactly N slots, not as many as the feed needs",
    },
    Choice {
        name: "--table",
        short: "",
        value: None,
        about: "look up in the list itself, as a card does; no withdrawals",
    },
    Choice {
        name: "--quiet",
        short: "-q",
        value: None,
        about: "leave the figures out",
    },
    Choice {
        name: "--output",
        short: "-o",
        value: Some("FILE"),
        about: "write to FILE, not to standard output",
    },
    Choice {
        name: "--help",
        short: "-h",
        value: None,
        about: "print this",
    },
];

const FEEDS: &str = "\
A feed is a file, or standard input for none or `-`. It is text, one route a line, or records of 8 bytes; which of
them, its bytes tell. In text, blank lines and what stands behind a # do not count:

  10.0.0.0/8 via 5             announce: to hop 5; `default via 1` is 0.0.0.0/0 via 1
  10.0.0.0/8 discard           announce: to be discarded; `via 0` says the same
  withdraw 10.0.0.0/8          take back exactly this prefix
  action 3 10.0.0.0/8 hop 5    any other record, field by field, as `show` prints it

Hops are 0 to 256, and hop 0 discards. An address without a route is discarded, too, so a feed needs no default route.
";

const ENDINGS: &str = "\
Exit status:
  0  done
  1  the library refused; its number, the record and what was applied before it are told, and nothing is written
  2  the command line, a file or a line cannot be used

Every answer and every refusal comes from the proved library; the tool has no rule of its own.
";

impl Command {
    pub fn named(name: &str) -> Option<&'static Command> {
        COMMANDS.iter().find(|command| command.name == name)
    }

    pub fn help(&self) -> String {
        let taken = |choice: &&Choice| self.options.contains(&choice.name) || choice.name == "--help";
        let options: String = OPTIONS.iter().filter(taken).map(Choice::line).collect();
        let Command {
            name, operands, about, ..
        } = self;
        format!("arvandish {name} [OPTIONS] {operands}\n\n{about}\n\nOptions:\n{options}\n{FEEDS}\n{ENDINGS}")
    }
}

impl Choice {
    pub fn named(word: &str) -> Option<&'static Choice> {
        OPTIONS
            .iter()
            .find(|choice| choice.name == word || (!word.is_empty() && choice.short == word))
    }

    fn line(&self) -> String {
        let short = if self.short.is_empty() {
            String::new()
        } else {
            format!("{}, ", self.short)
        };
        let value = self.value.map(|value| format!(" {value}")).unwrap_or_default();
        format!("  {:<18} {}\n", format!("{short}{}{value}", self.name), self.about)
    }
}

pub fn help() -> String {
    let line = |command: &Command| {
        format!(
            "  {:<24} {}\n",
            format!("{} {}", command.name, command.operands),
            command.about
        )
    };
    let commands: String = COMMANDS.iter().map(line).collect();
    format!(
        "arvandish: the smallest IPv4 route table that forwards every address alike\n\n\
         arvandish COMMAND [OPTIONS] ..\n{commands}\n\
         `arvandish COMMAND --help` tells its options; `arvandish --version` the version.\n\n{FEEDS}\n{ENDINGS}"
    )
}

pub fn version() -> String {
    format!("arvandish {}\n", env!("CARGO_PKG_VERSION"))
}
