//! Fits the marks of a house file and says how well: `cargo run --example fit -- FILE.house`.
use std::error::Error;
use std::process::ExitCode;
use wesalondo::{fit_joined, read_file, Piece};

fn main() -> ExitCode {
    let cover = concat!(env!("CARGO_MANIFEST_DIR"), "/../../examples/cover.house");
    let name = std::env::args().nth(1).unwrap_or_else(|| cover.to_owned());
    match told(&name) {
        Ok(words) => {
            println!("{words}");
            ExitCode::SUCCESS
        }
        Err(error) => {
            eprintln!("{name}: {error}");
            ExitCode::FAILURE
        }
    }
}

/// What the fit of a file's marks gives, in words.
fn told(name: &str) -> Result<String, Box<dyn Error>> {
    let house = read_file(&std::fs::read(name)?)?;
    let fit = fit_joined(&house.marks, house.tolerance)?;
    let farthest = fit.pieces().max_by(|a: &Piece, b: &Piece| a.distance.total_cmp(&b.distance)).ok_or("the fit has no curves")?;
    Ok(format!(
        "{} marks, {} curves within {}; the farthest mark is {}, which is {:.6} off",
        house.marks.len(),
        fit.len(),
        house.tolerance,
        farthest.worst,
        farthest.distance
    ))
}
