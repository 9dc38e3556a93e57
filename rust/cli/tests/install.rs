//! `make install` and `make uninstall`, and the completions in their shells.

mod common;
use common::{folder, has, ran, root, skipped, Ran};
use std::fs;
use std::os::unix::fs::PermissionsExt;
use std::path::{Path, PathBuf};
use std::process::{Command, Stdio};

/// The paths below a folder with their modes, without the folder.
fn below(folder: &Path) -> Vec<(String, u32)> {
    let (mut found, mut folders) = (Vec::new(), vec![folder.to_path_buf()]);
    while let Some(next) = folders.pop() {
        for entry in fs::read_dir(next).expect("a folder") {
            let path = entry.expect("an entry").path();
            if path.is_dir() {
                folders.push(path);
            } else {
                let mode = fs::metadata(&path).expect("a file").permissions().mode() & 0o777;
                let name = path.strip_prefix(folder).expect("a path below");
                found.push((name.display().to_string(), mode));
            }
        }
    }
    found.sort();
    found
}

fn make(all: &Path, aim: &str) {
    let mut make = Command::new("make");
    make.current_dir(root()).arg(aim).arg("PREFIX=/opt/c");
    make.arg(format!("OUT={}", all.join("out").display()));
    make.arg(format!("DESTDIR={}", all.join("to").display()));
    make.arg(concat!("PROGRAM=", env!("CARGO_BIN_EXE_cockledrift")));
    let ran = ran(make.stdin(Stdio::null()).output().expect("make runs"));
    assert_eq!(ran.code, 0, "{ran:?}");
}

#[test]
fn installs_and_uninstalls() {
    let all = folder("install");
    make(&all, "install");
    let to = all.join("to");
    let due = [
        ("opt/c/bin/cockledrift", 0o755),
        ("opt/c/include/cockledrift.h", 0o644),
        ("opt/c/lib/libcockledrift.a", 0o644),
        ("opt/c/lib/libcockledrift.so", 0o755),
        ("opt/c/lib/libcockledrift.so.0", 0o755),
        ("opt/c/lib/libcockledrift.so.0.1.0", 0o755),
        ("opt/c/lib/pkgconfig/cockledrift.pc", 0o644),
        ("opt/c/share/bash-completion/completions/cockledrift", 0o644),
        ("opt/c/share/cockledrift/cockledrift.py", 0o644),
        ("opt/c/share/fish/vendor_completions.d/cockledrift.fish", 0o644),
        ("opt/c/share/man/man1/cockledrift.1", 0o644),
        ("opt/c/share/zsh/site-functions/_cockledrift", 0o644),
    ];
    assert_eq!(below(&to), due.map(|(name, mode)| (name.to_string(), mode)));
    let program = to.join("opt/c/bin/cockledrift");
    let ran = ran(Command::new(&program).arg("--version").output().expect("it runs"));
    assert_eq!((ran.code, &ran.err[..]), (0, ""));
    has(&ran.out, "cockledrift 0.1.0\n");
    fs::write(to.join("opt/c/bin/other"), "").expect("a file");
    make(&all, "uninstall");
    assert_eq!(below(&to), [("opt/c/bin/other".to_string(), 0o644)]);
}

/// Runs a shell, where it is there. CI's machine need not have it: then this is told,
/// past the capture of cargo's tests.
fn shell(name: &str, words: &[&str]) -> Option<Ran> {
    let home = folder(&format!("home-{name}"));
    let mut command = Command::new(name);
    command.args(words).env("HOME", &home).env("XDG_CONFIG_HOME", &home).env("TERM", "dumb");
    match command.current_dir(&home).stdin(Stdio::null()).output() {
        Ok(output) => Some(ran(output)),
        Err(error) => {
            skipped(&format!("the completion for {name}: {error}"));
            None
        }
    }
}

fn share(name: &str) -> PathBuf {
    root().join("rust/cli/share").join(name)
}

#[test]
fn bash_completes() {
    let asked = |words: &str, number: usize| {
        format!(
            "COMP_WORDS=({words}); COMP_CWORD={number}; COMPREPLY=(); _cockledrift; echo \"${{COMPREPLY[@]}}\"; "
        )
    };
    let script = [
        format!(". '{}'; complete -p cockledrift; ", share("cockledrift.bash").display()),
        asked("cockledrift che", 1),
        asked("cockledrift list --r", 2),
        asked("cockledrift convert --to ''", 3),
        asked("cockledrift list --color a", 3),
        asked("cockledrift info some", 2),
    ];
    let ran = shell("bash", &["--norc", "-c", &script.concat()]).expect("bash is always there");
    let due = "complete -o default -F _cockledrift cockledrift\ncheck\n--raw --records\n8 7\nauto always\n\n";
    assert_eq!((ran.code, &ran.out[..], &ran.err[..]), (0, due, ""));
}

#[test]
fn fish_completes() {
    let asked = |line: &str| format!("echo '# {line}'; complete -C '{line}'; ");
    let script = [
        format!(
            "cd {}; source '{}'; ",
            root().join("docs").display(),
            share("cockledrift.fish").display()
        ),
        asked("cockledrift che"),
        asked("cockledrift list --r"),
        asked("cockledrift convert --to "),
        asked("cockledrift verify --folder chang"),
        asked("cockledrift info FORM"),
        asked("cockledrift --v"),
    ];
    let Some(ran) = shell("fish", &["--no-config", "-c", &script.concat()]) else { return };
    let due = "# cockledrift che\ncheck\tsays which files are good and where others are broken\n\
        # cockledrift list --r\n--raw\tthe text of the proved lister, in numbers\n\
        --records\tthe records alone, in the form that edit takes\n\
        # cockledrift convert --to \n7\t8 or 7\n8\t8 or 7\n\
        # cockledrift verify --folder chang\nchanges/\tDirectory\n\
        # cockledrift info FORM\nFORMAT.md\n\
        # cockledrift --v\n--version\tsays what this is\n";
    assert_eq!((ran.code, &ran.out[..], &ran.err[..]), (0, due, ""));
}

/// In a zsh with a terminal of its own, which is what completion needs.
#[test]
fn zsh_completes() {
    let script = format!(
        r#"
        zmodload zsh/zpty || exit 3
        zpty z "TERM=dumb zsh -f -i"
        say() {{ zpty -w -n z "$1"; }}
        until_seen() {{ local text=; while [[ $text != *$1* ]]; do zpty -r -t z part || {{ sleep 0.05; (( ++waits < 1200 )) || exit 4; continue; }}; text+=$part; done; print -r -- "$text"; }}
        waits=0
        say $'unsetopt zle_bracketed_paste; PS1=; fpath=("{share}" $fpath); autoload -Uz compinit; compinit -D -u; setopt no_list_ambiguous list_packed\n'
        say $'show() {{ print -r -- "<$BUFFER>"; zle kill-whole-line }}; zle -N show; bindkey "^X" show; print rea""dy\n'
        until_seen ready >/dev/null
        for line in "cockledrift che" "cockledrift list --ra" "cockledrift edit --a" "cockledrift convert --to=x --o" "cockledrift measure --su"; do
            say "$line"$'\t\x18'
            until_seen '>' | tr -d '\r' | grep -o '<.*>'
        done
        say $'cockledrift list --color \t\t'
        until_seen never >/dev/null && print values
        zpty -d z
        "#,
        share = share("").display()
    );
    let Some(ran) = shell("zsh", &["-f", "-c", &script]) else { return };
    let due = "<cockledrift check >\n<cockledrift list --raw >\n<cockledrift edit --at >\n\
        <cockledrift convert --to=x --output >\n<cockledrift measure --survey >\nvalues\n";
    assert_eq!((ran.code, &ran.out[..], &ran.err[..]), (0, due, ""));
}

/// The man page, as man shows it.
#[test]
fn the_man_page_is_one() {
    let mut man = Command::new("groff");
    man.args(["-ww", "-man", "-Tascii", "-P-cbou"]).arg(share("cockledrift.1"));
    let Ok(output) = man.stdin(Stdio::null()).output() else {
        return skipped("the man page: groff is not there");
    };
    let ran = ran(output);
    assert_eq!((ran.code, &ran.err[..]), (0, ""));
    for command in cli::table::COMMANDS {
        has(&ran.out, &format!("\n   {} {}\n", command.name, command.operands));
        has(&ran.out, command.example);
    }
    has(&ran.out, "EXIT STATUS");
}
