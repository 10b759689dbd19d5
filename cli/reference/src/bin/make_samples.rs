//! `make-samples DIR` writes the samples of fictitious contacts, the same bytes each time.

use std::path::Path;
use std::process::ExitCode;

use zs_reference::samples;

fn main() -> ExitCode {
    let arguments: Vec<String> = std::env::args().skip(1).collect();
    let folder = match arguments.as_slice() {
        [folder] => Path::new(folder),
        _ => {
            eprintln!("usage: make-samples DIR");
            return ExitCode::from(2);
        }
    };
    for sample in samples::all() {
        let path = folder.join(sample.name);
        if let Err(error) = std::fs::write(&path, &sample.bytes) {
            eprintln!("make-samples: {}: {error}", path.display());
            return ExitCode::FAILURE;
        }
        println!("{}: {} bytes", path.display(), sample.bytes.len());
    }
    ExitCode::SUCCESS
}
