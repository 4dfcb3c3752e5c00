//! What a reader of specifications and proofs must not meet: lines that are too long, names that are brought in and not
//! used, and places in sources that a proof's printed skeleton once named.

use std::collections::HashSet;
use std::path::{Path, PathBuf};
use std::{env, fs, io, process};

const LONGEST: usize = 160;

/// The Rattle and antt files below a folder, but for the copies that the prover keeps in each crate's out/.
fn sources(folder: &Path, found: &mut Vec<PathBuf>) -> io::Result<()> {
    for entry in fs::read_dir(folder)? {
        let path = entry?.path();
        if path.is_dir() {
            if !path.ends_with("out") {
                sources(&path, found)?;
            }
        } else if path.extension().map_or(false, |e| e == "antt" || e == "rt") {
            found.push(path);
        }
    }
    Ok(())
}

fn is_use(line: &str) -> bool {
    line.starts_with("use ")
}

/// The words of a file outside its use lines and comments; a name with a dot counts whole and by its parts.
fn words(text: &str) -> HashSet<&str> {
    let mut words = HashSet::new();
    for line in text.lines().filter(|line| !is_use(line)) {
        let code = line.split("--").next().unwrap_or("");
        for word in code.split(|c: char| c.is_whitespace() || "(){};,[]".contains(c)) {
            words.insert(word);
            let mut ends = word.match_indices('.').map(|(at, _)| at);
            if let Some(first) = ends.next() {
                words.insert(&word[..first]);
            }
            words.extend(word.split('.'));
        }
        if code.contains("[]") {
            words.insert("[]");
        }
    }
    words
}

/// Whether a name is used: an operator such as `◌≡◌` by what stands between its places.
fn is_used(name: &str, words: &HashSet<&str>) -> bool {
    words.contains(name)
        || name.contains('◌')
            && name.split('◌').filter(|part| !part.is_empty()).all(|part| words.contains(part))
}

/// The names that a use line brings in.
fn brought_in(line: &str) -> Vec<&str> {
    let path = &line["use ".len()..];
    match (path.find(".{"), path.strip_suffix('}')) {
        (Some(at), Some(group)) => group[at + 2..].split(',').map(last_name).collect(),
        _ => vec![last_name(path).rsplit('.').next().unwrap_or(path)],
    }
}

/// The name under which something is brought in.
fn last_name(item: &str) -> &str {
    item.rsplit(" as ").next().unwrap_or(item).trim()
}

/// A place in a source, as printed skeletons have it: `-- src/lib.rt:12:5`.
fn is_place(line: &str) -> bool {
    line.trim_start().strip_prefix("-- src/").map_or(false, |rest| {
        rest.contains(".rt:") && rest.chars().last().map_or(false, |c| c.is_ascii_digit())
    })
}

/// What is wrong with a file, a line each.
fn faults(path: &Path, text: &str) -> Vec<String> {
    let mut faults = Vec::new();
    let proofs = path.extension().map_or(false, |e| e == "antt");
    let words = words(text);
    for (number, line) in text.lines().enumerate() {
        let mut tell = |what: String| faults.push(format!("{}:{}: {}", path.display(), number + 1, what));
        let length = line.chars().count();
        // The toolchain's layout keeps an attribute in one line.
        if length > LONGEST && !line.trim_start().starts_with("#[tactic(") {
            tell(format!("{} characters", length));
        }
        if is_place(line) {
            tell("a place in a source".to_string());
        }
        if proofs && is_use(line) {
            for name in brought_in(line).into_iter().filter(|name| !is_used(name, &words)) {
                tell(format!("'{}' is not used", name));
            }
        }
    }
    faults
}

fn run(folder: &Path) -> io::Result<usize> {
    let mut files = Vec::new();
    sources(folder, &mut files)?;
    files.sort();
    let mut count = 0;
    for path in &files {
        for fault in faults(path, &fs::read_to_string(path)?) {
            println!("{}", fault);
            count += 1;
        }
    }
    println!("tidy: {} files, {} faults", files.len(), count);
    Ok(count)
}

fn main() {
    let folder = env::args_os().nth(1).unwrap_or_else(|| {
        eprintln!("usage: tidy FOLDER");
        process::exit(2);
    });
    match run(Path::new(&folder)) {
        Ok(0) => {}
        Ok(_) => process::exit(1),
        Err(error) => {
            eprintln!("tidy: {}", error);
            process::exit(1);
        }
    }
}
