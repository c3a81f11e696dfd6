//! What `oracle` is asked for.

use std::path::{Path, PathBuf};
use std::process::ExitCode;
use std::{fs, io};

use oracle::script::case::{hush_commit, Case};
use oracle::script::rng::Rng;
use oracle::script::tables::call;
use oracle::script::{covered, report};
use oracle::{differences, histories, script};

struct Command {
    name: &'static str,
    /// The words that it takes, as the usage shows them: a folder or a document, and options. `options` reads them too.
    words: &'static str,
    about: &'static str,
    /// Cases, where none are asked for.
    cases: usize,
    run: fn(&Options) -> io::Result<bool>,
}

const COMMANDS: [Command; 5] = [
    Command {
        name: "compare",
        words: "[--cases N] [--seed S] [--calls A,B,..] [--replay PATH]",
        about: "runs the port on N cases, of all calls or those named, each answer beside the commit's",
        cases: 600_000,
        run: compare,
    },
    Command {
        name: "store",
        words: "DIR [--seed S]",
        about: "writes a script, DIR/stdin, and the commit's answers, DIR/stdout",
        cases: 0,
        run: store,
    },
    Command {
        name: "covered",
        words: "DIR",
        about: "tells what the script in DIR lacks of docs/REPLAY.md's tables",
        cases: 0,
        run: cover,
    },
    Command {
        name: "differences",
        words: "[DOCUMENT] [--replay PATH]",
        about: "runs the points of docs/DIFFERENCES.md, and prints those that it has otherwise",
        cases: 0,
        run: part,
    },
    Command {
        name: "histories",
        words: "[--cases N] [--seed S]",
        about: "runs N histories of a link, and lists found by a search, beside the exact averages",
        cases: 2000,
        run: live,
    },
];

fn help() -> String {
    let mut text = "oracle COMMAND ..: compares the port with the commit's own Rust. It is run at the top of the repository.\n".to_string();
    for command in &COMMANDS {
        text += &format!("  {:<63}  {}\n", format!("{} {}", command.name, command.words), command.about);
    }
    text += "PATH is the port's program, crates/replay/out/replay where it is not named. S is 1, N 600000 for compare and 2000 for histories.\n";
    text + "Ends with 0; with 1 where something differs, is missing or can't be read; with 2 where a word is not known.\n"
}

struct Options {
    cases: usize,
    seed: u64,
    /// All where none is named.
    calls: Vec<u64>,
    replay: PathBuf,
    /// The folder or the document.
    named: Option<PathBuf>,
}

/// The options, or what is wrong with the words.
fn options(command: &Command, mut words: impl Iterator<Item = String>) -> Result<Options, String> {
    let mut options = Options {
        cases: command.cases,
        seed: 1,
        calls: vec![],
        replay: PathBuf::from("crates/replay/out/replay"),
        named: None,
    };
    while let Some(word) = words.next() {
        if !word.starts_with('-') {
            if command.words.starts_with("[--") || options.named.is_some() {
                return Err(format!("{} takes no {word}", command.name));
            }
            options.named = Some(PathBuf::from(word));
            continue;
        }
        if !command.words.contains(&format!("[{word} ")) {
            return Err(format!("{} takes no {word}", command.name));
        }
        let value = words.next().ok_or(format!("{word} asks for a word behind it"))?;
        let number = || value.parse().map_err(|_| format!("{word} asks for a number, not {value}"));
        match word.as_str() {
            "--cases" => options.cases = number()? as usize,
            "--seed" => options.seed = number()?,
            "--calls" => options.calls = value.split(',').map(drawn).collect::<Result<_, _>>()?,
            _ => options.replay = PathBuf::from(value),
        }
    }
    if command.words.starts_with("DIR") && options.named.is_none() {
        return Err(format!("{} asks for a folder", command.name));
    }
    Ok(options)
}

/// A call that is drawn: one that takes arguments.
fn drawn(word: &str) -> Result<u64, String> {
    let known = word.parse().ok().and_then(call).filter(|call| !call.arguments.is_empty());
    let call = known.ok_or(format!("{word} is no call of docs/REPLAY.md that takes arguments"))?;
    Ok(call.number)
}

/// The port's program, asked for before any case is made.
fn replay(options: &Options) -> io::Result<&Path> {
    if options.replay.is_file() {
        return Ok(&options.replay);
    }
    Err(io::Error::other(format!(
        "{} is missing: `rt run` in crates/replay makes crates/replay/out/replay, or --replay names another",
        options.replay.display()
    )))
}

fn read(path: PathBuf) -> io::Result<String> {
    fs::read_to_string(&path).map_err(|e| io::Error::other(format!("cannot read {}: {e}", path.display())))
}

fn write(path: PathBuf, text: &str) -> io::Result<()> {
    fs::write(&path, text).map_err(|e| io::Error::other(format!("cannot write {}: {e}", path.display())))
}

/// How many cases are made and held at a time.
const AT_A_TIME: usize = 250_000;

fn compare(options: &Options) -> io::Result<bool> {
    let replay = replay(options)?;
    let named = |case: &Case| options.calls.is_empty() || options.calls.contains(&case.call);
    let mut script = script::Script::new(options.seed).filter(named);
    let mut report = report::Report::default();
    let mut left = options.cases;
    while left > 0 {
        let cases: Vec<Case> = script.by_ref().take(left.min(AT_A_TIME)).collect();
        let answers = script::run(replay, script::text(&cases))?;
        report.add(&cases, &answers);
        left -= cases.len();
    }
    report.print();
    Ok(report.different() == 0)
}

fn dir(options: &Options) -> &Path {
    options.named.as_deref().expect("options asks for the folder")
}

fn store(options: &Options) -> io::Result<bool> {
    let cases = script::stored(&mut Rng::new(options.seed));
    let line = |(i, case): (usize, &Case)| case.expected(i + 1) + "\n";
    let (script, answers) = (script::text(&cases), cases.iter().enumerate().map(line).collect::<String>());
    write(dir(options).join("stdin"), &script)?;
    write(dir(options).join("stdout"), &answers)?;
    Ok(covered::covered(&script, &answers))
}

fn cover(options: &Options) -> io::Result<bool> {
    let (script, answers) = (read(dir(options).join("stdin"))?, read(dir(options).join("stdout"))?);
    Ok(covered::covered(&script, &answers))
}

fn part(options: &Options) -> io::Result<bool> {
    let document = options.named.clone().unwrap_or(PathBuf::from("docs/DIFFERENCES.md"));
    differences::run(replay(options)?, &read(document)?)
}

fn live(options: &Options) -> io::Result<bool> {
    histories::run(options.seed, options.cases);
    Ok(true)
}

/// Does what the words ask for.
pub fn run(words: impl Iterator<Item = String>) -> ExitCode {
    hush_commit();
    let words: Vec<String> = words.collect();
    if words.iter().any(|word| word == "--help" || word == "-h" || word == "help") {
        print!("{}", help());
        return ExitCode::SUCCESS;
    }
    let mut words = words.into_iter();
    let Some(name) = words.next() else {
        eprint!("{}", help());
        return ExitCode::from(2);
    };
    let Some(command) = COMMANDS.iter().find(|command| command.name == name) else {
        eprint!("oracle: no command {name}\n{}", help());
        return ExitCode::from(2);
    };
    let options = match options(command, words) {
        Ok(options) => options,
        Err(wrong) => {
            eprintln!("oracle: {wrong}\nusage: oracle {} {}", command.name, command.words);
            return ExitCode::from(2);
        }
    };
    match (command.run)(&options) {
        Ok(true) => ExitCode::SUCCESS,
        Ok(false) => ExitCode::FAILURE,
        Err(e) => {
            eprintln!("oracle: {e}");
            ExitCode::FAILURE
        }
    }
}
