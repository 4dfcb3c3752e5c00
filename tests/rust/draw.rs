//! `draw CRATES FOLDER` draws the pictures of docs/ARCHITECTURE.md into a folder, the crates from a file such as
//! crates.txt.

mod picture;
mod reading;
mod support;

use std::path::Path;
use std::{env, fs, process};

fn draw(crates: &Path, folder: &Path) -> Result<(), String> {
    let told = |path: &Path, error: std::io::Error| format!("{}: {}", path.display(), error);
    let file = fs::read_to_string(crates).map_err(|error| told(crates, error))?;
    fs::create_dir_all(folder).map_err(|error| told(folder, error))?;
    for (name, picture) in [
        ("crates.svg", picture::crates::draw(&file)?),
        ("device.svg", picture::device::draw()?),
        ("gateway.svg", picture::gateway::draw()?),
    ] {
        let path = folder.join(name);
        fs::write(&path, picture).map_err(|error| told(&path, error))?;
    }
    Ok(())
}

fn main() {
    let arguments: Vec<String> = env::args().skip(1).collect();
    let outcome = match &arguments[..] {
        [crates, folder] => draw(Path::new(crates), Path::new(folder)),
        _ => {
            eprintln!("usage: draw CRATES FOLDER");
            process::exit(2);
        }
    };
    if let Err(error) = outcome {
        eprintln!("draw: {}", error);
        process::exit(1);
    }
}
