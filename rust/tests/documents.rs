//! The documents and the C header, held to the archive. Each C block of README and docs is compiled
//! and run as it stands there; the doctests of src/lib.rs run the Rust blocks.

use std::collections::BTreeSet;
use std::fs;
use std::path::{Path, PathBuf};
use std::process::{Command, Output};
use turftangle::{mus, sap, sid, Kind, Reason, PHRASE_MOST};

/// The repository's top folder.
fn top() -> PathBuf {
    Path::new(env!("CARGO_MANIFEST_DIR")).join("..")
}

/// The archive's folder, as build.rs finds it.
fn archive_folder() -> PathBuf {
    match std::env::var_os("TURFTANGLE_LIB_DIR") {
        Some(folder) => PathBuf::from(folder),
        None => top().join("target/staticlib"),
    }
}

fn text_of(path: &Path) -> String {
    fs::read_to_string(path).unwrap_or_else(|error| panic!("{}: {error}", path.display()))
}

/// The documents that may have blocks, by their paths from the top folder.
fn documents() -> Vec<String> {
    let mut names = vec!["README.md".to_string()];
    let mut folders = vec!["docs".to_string()];
    while let Some(folder) = folders.pop() {
        for entry in fs::read_dir(top().join(&folder)).expect("docs is a folder") {
            let entry = entry.expect("an entry");
            let name = format!("{folder}/{}", entry.file_name().to_string_lossy());
            if entry.path().is_dir() {
                folders.push(name);
            } else if name.ends_with(".md") {
                names.push(name);
            }
        }
    }
    names
}

/// A fenced block: its language, its first line in the document and its text.
struct Block {
    language: String,
    line: usize,
    text: String,
}

fn blocks(document: &str) -> Vec<Block> {
    let mut found: Vec<Block> = Vec::new();
    let mut inside = false;
    for (number, line) in document.lines().enumerate() {
        if let Some(language) = line.strip_prefix("```") {
            inside = !inside;
            if inside {
                found.push(Block {
                    language: language.to_string(),
                    line: number + 2,
                    text: String::new(),
                });
            }
        } else if inside {
            let block = found.last_mut().expect("a block is open");
            block.text.push_str(line);
            block.text.push('\n');
        }
    }
    assert!(!inside, "the last block is closed");
    found
}

/// A folder of its own with what the documents' commands name: include, crates, target/staticlib.
fn workplace(name: &str) -> PathBuf {
    let folder = Path::new(env!("CARGO_TARGET_TMPDIR")).join(name);
    let _ = fs::remove_dir_all(&folder);
    fs::create_dir_all(folder.join("target")).expect("a folder");
    let links = [
        ("include", top().join("include")),
        ("crates", top().join("crates")),
        ("target/staticlib", archive_folder()),
    ];
    for (link, place) in links {
        let place = place.canonicalize().expect("the folder is there");
        std::os::unix::fs::symlink(place, folder.join(link)).expect("a link");
    }
    folder
}

fn run(folder: &Path, program: &str, arguments: &[&str]) -> Output {
    let mut command = Command::new(program);
    let output = command.args(arguments).current_dir(folder).output();
    output.unwrap_or_else(|error| panic!("{program}: {error}"))
}

/// Fails unless the command ended well; says what it wrote where not.
fn must(folder: &Path, program: &str, arguments: &[&str]) {
    let output = run(folder, program, arguments);
    let said = String::from_utf8_lossy(&output.stderr);
    assert!(output.status.success(), "{program} {arguments:?}: {said}");
}

/// Compiles a file and links nothing; no warning is allowed. C++ is left out where there is no g++.
fn compile(folder: &Path, standard: &str, file: &str) {
    let cpp = standard.contains('+');
    if cpp && Command::new("g++").arg("--version").output().is_err() {
        return println!("no g++ here: {standard} is left out");
    }
    let (compiler, language) = if cpp { ("g++", "c++") } else { ("gcc", "c") };
    let standard = format!("-std={standard}");
    let mut arguments = vec![standard.as_str(), "-fsyntax-only", "-x", language, file];
    arguments.extend(["-Wall", "-Wextra", "-pedantic", "-Werror", "-Iinclude"]);
    must(folder, compiler, &arguments);
}

/// The name of a block's file: its first line is `/* NAME.c: ...`.
fn file_name(block: &Block) -> &str {
    let rest = block.text.strip_prefix("/* ").unwrap_or("");
    let name = rest.split(':').next().unwrap_or("");
    assert!(name.ends_with(".c"), "line {}: no name", block.line);
    name
}

/// A C block, then its commands, then what these print. `tools/archive` is left out: the archive
/// is there when the tests run.
fn run_c_block(document: &str, block: &Block, commands: &Block, printed: &Block) {
    let place = format!("{document} line {}", block.line);
    assert_eq!(commands.language, "sh", "{place}: its commands come next");
    assert_eq!(printed.language, "text", "{place}: then what they print");
    let name = file_name(block);
    let folder = workplace(&format!("{}-{}", document.replace('/', "-"), block.line));
    fs::write(folder.join(name), &block.text).expect("a file");
    compile(&folder, "c99", name);
    compile(&folder, "c++11", name);
    let lines: Vec<&str> = commands.text.lines().collect();
    let script = lines.into_iter().filter(|line| *line != "tools/archive");
    let script = script.collect::<Vec<_>>().join("\n");
    let output = run(&folder, "sh", &["-c", &script]);
    assert_eq!(String::from_utf8_lossy(&output.stderr), "", "{place}");
    let said = String::from_utf8_lossy(&output.stdout);
    assert_eq!(said, printed.text, "{place}");
}

#[test]
fn c_blocks_run() {
    let mut count = 0;
    for document in documents() {
        let found = blocks(&text_of(&top().join(&document)));
        for at in (0..found.len()).filter(|&at| found[at].language == "c") {
            assert!(at + 2 < found.len(), "{document}: a C block comes last");
            run_c_block(&document, &found[at], &found[at + 1], &found[at + 2]);
            count += 1;
        }
    }
    println!("{count} C blocks were compiled and run");
    assert!(count > 0);
}

/// rustdoc runs the Rust blocks of the documents that src/lib.rs includes; it would take a block
/// without a language, or an indented one, for Rust too.
#[test]
fn rust_blocks_are_doctests() {
    let library = text_of(&top().join("rust/src/lib.rs"));
    let mut count = 0;
    for document in documents() {
        let found = blocks(&text_of(&top().join(&document)));
        let rust = found.iter().filter(|block| block.language == "rust");
        count += rust.clone().count();
        let included = library.contains(&format!("include_str!(\"../../{document}\")"));
        assert_eq!(included, rust.count() > 0, "{document}");
        for block in &found {
            let known = ["c", "rust", "sh", "text"].contains(&block.language.as_str());
            assert!(known, "{document} line {}: what language?", block.line);
        }
    }
    println!("{count} Rust blocks are doctests");
    assert!(count > 0);
}

fn header() -> String {
    text_of(&top().join("include/turftangle.h"))
}

#[test]
fn header_compiles_alone() {
    let folder = workplace("header");
    fs::write(folder.join("alone.c"), "#include \"turftangle.h\"\n").expect("a file");
    for standard in ["c99", "c11", "c++98", "c++17"] {
        compile(&folder, standard, "alone.c");
    }
}

/// A word that begins with `front`, as long as it goes.
fn words_with<'a>(text: &'a str, front: &'a str) -> impl Iterator<Item = &'a str> {
    let words = text.split(|c: char| !c.is_ascii_alphanumeric() && c != '_');
    words.filter(move |word| word.starts_with(front))
}

/// The header declares the functions that the archive exports, and src/raw.rs the same.
#[test]
fn header_declares_what_is_exported() {
    let archive = archive_folder().join("libturftangle.a");
    let archive = archive.to_string_lossy();
    let output = run(&top(), "nm", &["-g", "--defined-only", &archive]);
    let listed = String::from_utf8_lossy(&output.stdout).into_owned();
    let exported: BTreeSet<&str> = words_with(&listed, "tt_").collect();
    let header = header();
    let declared = header
        .lines()
        .filter_map(|line| line.strip_prefix("uint64_t "));
    let declared: BTreeSet<&str> = declared.filter_map(|line| line.split('(').next()).collect();
    assert_eq!(declared, exported);
    let raw = text_of(&top().join("rust/src/raw.rs"));
    let declared = raw.split("pub fn ").filter(|rest| rest.starts_with("tt_"));
    let declared: BTreeSet<&str> = declared.filter_map(|rest| rest.split('(').next()).collect();
    assert_eq!(declared, exported);
}

/// The header's constants: name and value.
fn constants() -> Vec<(String, u32)> {
    let header = header();
    let parts: Vec<&str> = header.split(" = ").collect();
    let pairs = parts.windows(2).filter_map(|pair| {
        let name = pair[0].rsplit(|c: char| c.is_whitespace()).next()?;
        let digits: String = pair[1].chars().take_while(char::is_ascii_digit).collect();
        let value = digits.parse().ok()?;
        name.starts_with("TT_").then(|| (name.to_string(), value))
    });
    pairs.collect()
}

/// NoSuchSong as NO_SUCH_SONG.
fn constant_name(name: &str) -> String {
    let mut out = String::new();
    for c in name.chars() {
        if c.is_ascii_uppercase() && !out.is_empty() {
            out.push('_');
        }
        out.push(c.to_ascii_uppercase());
    }
    out
}

/// Every refusal has a constant with its number, and before it a comment with its phrase; so has its
/// case of the Rust enum.
#[test]
fn every_refusal_has_its_phrase() {
    let front = "TT_REFUSED_";
    let package = text_of(&top().join("rust/src/refusal.rs"));
    let mut given = constants();
    given.retain(|(name, _)| name.starts_with(front));
    let mut wanted = Vec::new();
    let header = header();
    for reason in Reason::ALL {
        let name = constant_name(&format!("{reason:?}"));
        let comment = format!("/* {} */\n    {front}{name} = ", reason.phrase());
        assert!(header.contains(&comment), "{comment}");
        assert!(reason.phrase().len() <= PHRASE_MOST, "{comment}");
        let case = format!(
            "/// {}: {}\n    {reason:?} = ",
            reason.number(),
            reason.phrase()
        );
        assert!(package.contains(&case), "{case}");
        wanted.push((format!("{front}{name}"), reason.number()));
    }
    assert_eq!(given, wanted);
}

/// The constants that begin so, with what comes after the front.
fn with_front(front: &str) -> Vec<(String, u32)> {
    let rest = |(name, value): (String, u32)| Some((name.strip_prefix(front)?.to_string(), value));
    constants().into_iter().filter_map(rest).collect()
}

/// The names of an enum's cases as the header has them, with their numbers.
fn cases<T: Copy + std::fmt::Debug>(cases: &[T], number: impl Fn(T) -> u32) -> Vec<(String, u32)> {
    let named = |&case: &T| (constant_name(&format!("{case:?}")), number(case));
    cases.iter().map(named).collect()
}

/// The header's constants of values and counts are the Rust package's.
#[test]
fn header_values() {
    use sid::{Clock, Model, Speed};
    let kinds = [Kind::Neither, Kind::Psid, Kind::Rsid, Kind::Mus, Kind::Sap];
    assert_eq!(with_front("TT_KIND_"), cases(&kinds, Kind::number));
    let clocks = [Clock::Unknown, Clock::Pal, Clock::Ntsc, Clock::Both];
    assert_eq!(with_front("TT_CLOCK_"), cases(&clocks, Clock::number));
    let models = [Model::Unknown, Model::Mos6581, Model::Mos8580, Model::Both];
    assert_eq!(with_front("TT_MODEL_"), cases(&models, Model::number));
    let speeds = [Speed::VerticalBlank, Speed::Cia];
    assert_eq!(with_front("TT_SPEED_"), cases(&speeds, Speed::bit));
    let types = ["B", "C", "D", "S"].map(|letter| {
        let number = u32::from(letter.as_bytes()[0]);
        (letter.to_string(), number)
    });
    assert_eq!(with_front("TT_TYPE_"), types);
    let count = |name: &str| with_front(name)[0].1 as usize;
    assert_eq!(count("TT_MEMORY_SIZE"), sid::MEMORY_SIZE);
    assert_eq!(count("TT_FIELD_CELLS"), sid::FIELD_CELLS);
    assert_eq!(count("TT_ACCEPT_CELLS"), mus::ACCEPT_CELLS);
    assert_eq!(count("TT_VOICES_CELLS"), mus::VOICES_CELLS);
    assert_eq!(count("TT_LINE_CELLS"), mus::LINE_CELLS);
    assert_eq!(count("TT_SAP_CELLS"), sap::FIELD_CELLS);
    assert_eq!(count("TT_BLOCK_CELLS"), sap::BLOCK_CELLS);
    assert_eq!(count("TT_MEMORY_SIZE"), sap::MEMORY_SIZE);
    // a constant of an enum is an int, which cannot hold it
    let unstated = format!("#define TT_TIME_UNSTATED {}u\n", u32::MAX);
    assert!(header().contains(&unstated));
    assert_eq!(count("TT_PHRASE_MOST"), PHRASE_MOST);
}

/// The words of docs/INTERFACE.md's table of fields, in its order. A text or the payload has two.
const FIELDS: &str = "RSID VERSION LOAD INIT PLAY SONGS START SPEED BASIC CLOCK MODEL START_PAGE \
    PAGE_LENGTH TITLE TITLE_LENGTH AUTHOR AUTHOR_LENGTH RELEASED RELEASED_LENGTH PAYLOAD \
    PAYLOAD_LENGTH";

/// The same of a SAP file. A text has two.
const SAP_FIELDS: &str = "TYPE SONGS DEFAULT_SONG STEREO NTSC COVOX FASTPLAY FASTPLAY_STATED INIT \
    MUSIC PLAYER PLAYER_THERE AUTHOR AUTHOR_LENGTH NAME NAME_LENGTH DATE DATE_LENGTH TIMES BLOCKS \
    DATA";

/// The cells of a list have the names of what stands there, in that order; the last names are how
/// many a voice has, where there are three voices, and how many there are.
#[test]
fn header_cells() {
    for (front, names, voices) in [
        ("TT_FIELD_", FIELDS, 1),
        ("TT_ACCEPT_", "OFFSET PAIRS EVENTS WALKED", 3),
        ("TT_LENGTH_", "TIME", 1),
        ("TT_VOICES_", "OFFSET PAIRS", 3),
        ("TT_LINE_", "OFFSET LENGTH", 1),
        ("TT_SAP_", SAP_FIELDS, 1),
        ("TT_BLOCK_", "START END OFFSET", 1),
    ] {
        let mut wanted: Vec<(&str, u32)> = names.split_whitespace().zip(0..).collect();
        let count = wanted.len() as u32;
        if voices > 1 {
            wanted.push(("GROUP", count));
        }
        wanted.push(("CELLS", voices * count));
        let named = with_front(front);
        let named: Vec<(&str, u32)> = named.iter().map(|(n, v)| (n.as_str(), *v)).collect();
        assert_eq!(named, wanted, "{front}");
    }
}
