use std::io::{self, Read, Write};
use std::process::ExitCode;

const USAGE: &str = "usage: oracle list < CAPTURE   prints the capture's listing
       oracle cases            prints the cases made by hand, and the answers";

fn main() -> ExitCode {
    let command = std::env::args().nth(1).unwrap_or_default();
    let done = match command.as_str() {
        "list" => list(),
        "cases" => {
            let text = oracle::cases::by_hand(&oracle::answers::Oracle);
            print(text.as_bytes())
        }
        _ => {
            eprintln!("{USAGE}");
            return ExitCode::from(2);
        }
    };
    match done {
        Ok(()) => ExitCode::SUCCESS,
        Err(error) => {
            eprintln!("oracle: {error}");
            ExitCode::FAILURE
        }
    }
}

fn print(text: &[u8]) -> io::Result<()> {
    io::stdout().lock().write_all(text)
}

/// The listing of the capture on standard input.
fn list() -> io::Result<()> {
    let mut capture = Vec::new();
    // One byte more than is taken tells a capture that is too long.
    let most = oracle::listing::MOST as u64 + 1;
    io::stdin().lock().take(most).read_to_end(&mut capture)?;
    print(&oracle::listing::listing(&capture))
}
