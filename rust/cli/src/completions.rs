//! The completions of three shells, by the table of commands.

use crate::table::{Command, Flag, COMMANDS, COMMON};

/// What stands for a value.
enum Value {
    Words(&'static str),
    Folder,
    File,
    /// A name or a number, which no shell knows.
    Other,
}

fn value(name: &str) -> Value {
    match name {
        "WHEN" => Value::Words("auto always never"),
        "VERSION" => Value::Words("8 7"),
        "DIR" => Value::Folder,
        "FILE" | "RECORDS" => Value::File,
        _ => Value::Other,
    }
}

/// What may stand in the place of a command.
const OTHERS: [(&str, &str); 3] = [
    ("help", "says what a command does"),
    ("--help", "names all commands"),
    ("--version", "says what this is"),
];

fn flags(command: &Command) -> impl Iterator<Item = &Flag> {
    command.flags.iter().chain(COMMON)
}

/// The commands with their words, then the others.
fn first() -> impl Iterator<Item = (&'static str, &'static str)> {
    COMMANDS.iter().map(|command| (command.name, command.words)).chain(OTHERS)
}

/// For bash.
pub fn bash() -> String {
    let mut text = String::from("# Completion of cockledrift for bash.\n_cockledrift()\n{\n");
    text += "    local word=${COMP_WORDS[COMP_CWORD]} before=${COMP_WORDS[COMP_CWORD-1]} words=\n";
    let names: Vec<_> = first().map(|(name, _)| name).collect();
    text +=
        &format!("    if [ \"$COMP_CWORD\" -eq 1 ]; then\n        words='{}'\n", names.join(" "));
    let all = COMMANDS.iter().flat_map(|command| command.flags).chain(COMMON);
    let mut seen = Vec::new();
    for flag in all {
        if let Some(Value::Words(words)) = flag.value.map(value) {
            if !seen.contains(&flag.long) {
                seen.push(flag.long);
                text += &format!("    elif [ \"$before\" = {} ]; then\n", flag.long);
                text += &format!("        words='{words}'\n");
            }
        }
    }
    text += "    elif [[ $word == -* ]]; then\n        case ${COMP_WORDS[1]} in\n";
    for command in COMMANDS {
        let words: Vec<_> = flags(command).map(|flag| flag.long).collect();
        text += &format!("            {}) words='{}' ;;\n", command.name, words.join(" "));
    }
    text += "        esac\n    fi\n";
    text +=
        "    [ -n \"$words\" ] && mapfile -t COMPREPLY < <(compgen -W \"$words\" -- \"$word\")\n";
    text + "}\ncomplete -o default -F _cockledrift cockledrift\n"
}

/// For zsh.
pub fn zsh() -> String {
    let mut text = String::from("#compdef cockledrift\n# Completion of cockledrift for zsh.\n");
    text += "if (( CURRENT == 2 )); then\n    local -a commands=(\n";
    for (name, words) in first() {
        text += &format!("        '{name}:{}'\n", zsh_plain(words));
    }
    text += "    )\n    _describe command commands\n    return\nfi\ncase ${words[2]} in\n";
    for command in COMMANDS {
        text += &format!("    {})\n        _arguments \\\n", command.name);
        for flag in flags(command) {
            text += &zsh_flag(flag);
        }
        text += "            '*:file:_files' ;;\n";
    }
    text + "esac\n"
}

fn zsh_plain(words: &str) -> String {
    words.replace('\'', "'\\''").replace('[', "\\[").replace(']', "\\]").replace(':', "\\:")
}

fn zsh_flag(flag: &Flag) -> String {
    let action = |name: &str| match value(name) {
        Value::Words(words) => format!(":{name}:({words})"),
        Value::Folder => format!(":{name}:_files -/"),
        Value::File => format!(":{name}:_files"),
        Value::Other => format!(":{name}:"),
    };
    let (action, words) = (flag.value.map(action).unwrap_or_default(), zsh_plain(flag.words));
    if flag.optional() {
        return format!("            '{}=-[{words}]::value: ' \\\n", flag.long);
    }
    let mut text = format!("            '{}[{words}]{action}' \\\n", flag.long);
    if let Some(letter) = flag.short {
        text += &format!("            '-{letter}[{words}]{action}' \\\n");
    }
    text
}

/// For fish.
pub fn fish() -> String {
    let mut text = String::from("# Completion of cockledrift for fish.\n");
    text += "complete -c cockledrift -n __fish_use_subcommand -f\n";
    for (name, words) in first() {
        let words = fish_plain(words);
        text +=
            &format!("complete -c cockledrift -n __fish_use_subcommand -a {name} -d '{words}'\n");
    }
    for command in COMMANDS {
        for flag in flags(command) {
            text += &fish_flag(command, flag);
        }
    }
    text
}

fn fish_flag(command: &Command, flag: &Flag) -> String {
    let under = format!("-n '__fish_seen_subcommand_from {}'", command.name);
    let short = flag.short.map(|letter| format!(" -s {letter}")).unwrap_or_default();
    let value = match flag.value.map(value) {
        None => String::new(),
        Some(_) if flag.optional() => String::new(),
        Some(Value::Words(words)) => format!(" -x -a '{words}'"),
        Some(Value::Folder) => " -x -a '(__fish_complete_directories)'".into(),
        Some(Value::File) => " -r".into(),
        Some(Value::Other) => " -x".into(),
    };
    let (long, words) = (flag.long.trim_start_matches('-'), fish_plain(flag.words));
    format!("complete -c cockledrift {under} -l {long}{short}{value} -d '{words}'\n")
}

fn fish_plain(words: &str) -> String {
    words.replace('\\', "\\\\").replace('\'', "\\'")
}
