//! Case files and their lines, to hold the proved engine against this independent one.
//!
//!     peeriewick-tests fixed              the fixed cases, as a case file
//!     peeriewick-tests names              their names in order, one per line
//!     peeriewick-tests expected           their lines, written by hand
//!     peeriewick-tests random SEED N      at most N random cases, as a case file
//!     peeriewick-tests answers            reads a case file, prints its lines
//!     peeriewick-tests inputs SEED N DIR  writes N random inputs of the program as
//!                                         DIR/0, DIR/1, .. and the lines it is to
//!                                         print as DIR/0.line, DIR/1.line, ..
//!     peeriewick-tests reading DIR        the same for inputs that show how it reads,
//!                                         as DIR/NAME and DIR/NAME.line
//!     peeriewick-tests pieces FILE        writes a file in pieces, with pauses

use peeriewick_tests::{engine, fixed, frame, inputs, random};

use std::fs::{self, File};
use std::io::{self, ErrorKind, Read, Write};
use std::os::unix::io::AsFd;
use std::path::Path;
use std::thread::sleep;
use std::time::Duration;

fn write_inputs(list: &[(String, Vec<u8>)], folder: &Path) -> Result<(), String> {
    let write = |name: String, bytes: &[u8]| {
        let path = folder.join(name);
        fs::write(&path, bytes).map_err(|e| format!("{}: {e}", path.display()))
    };
    fs::create_dir_all(folder).map_err(|e| format!("{}: {e}", folder.display()))?;
    for (name, input) in list {
        write(name.clone(), input)?;
        write(format!("{name}.line"), format!("{}\n", engine::program(input)).as_bytes())?;
    }
    Ok(())
}

fn numbered(list: Vec<Vec<u8>>) -> Vec<(String, Vec<u8>)> {
    list.into_iter().enumerate().map(|(number, input)| (number.to_string(), input)).collect()
}

/// Writes each piece at once. The pauses are long behind the first piece, until
/// the reader surely waits, and before the last. A reader that has enough and
/// goes is no error.
fn write_in_pieces(path: &str) -> Result<(), String> {
    let input = fs::read(path).map_err(|e| format!("{path}: {e}"))?;
    let list = inputs::pieces(&input);
    let failed = |e: io::Error| format!("standard output: {e}");
    let mut out = File::from(io::stdout().as_fd().try_clone_to_owned().map_err(failed)?);
    for (number, piece) in list.iter().enumerate() {
        match out.write_all(piece) {
            Err(e) if e.kind() == ErrorKind::BrokenPipe => return Ok(()),
            written => written.map_err(failed)?,
        }
        let long = number == 0 || number + 2 == list.len();
        sleep(Duration::from_millis(if long { 30 } else { 1 }));
    }
    Ok(())
}

/// One line for each fixed case.
fn lines(of: impl Fn(fixed::Named) -> String) -> Vec<u8> {
    let mut text = String::new();
    for named in fixed::fixed() {
        text.push_str(&of(named));
        text.push('\n');
    }
    text.into_bytes()
}

fn answers() -> Result<Vec<u8>, String> {
    let mut bytes = Vec::new();
    io::stdin().read_to_end(&mut bytes).map_err(|e| format!("standard input: {e}"))?;
    let mut text = String::new();
    for case in frame::parse(&bytes)? {
        text.push_str(&frame::answer(&case));
        text.push('\n');
    }
    Ok(text.into_bytes())
}

fn number<T: std::str::FromStr>(name: &str, word: &str) -> Result<T, String> {
    word.parse().map_err(|_| format!("{name}: not a number: {word}"))
}

fn run(arguments: &[String]) -> Result<Vec<u8>, String> {
    let words: Vec<&str> = arguments.iter().map(|a| a.as_str()).collect();
    match words[..] {
        ["fixed"] => Ok(frame::file(fixed::fixed().iter().map(|named| &named.case))),
        ["names"] => Ok(lines(|named| named.name)),
        ["expected"] => Ok(lines(|named| named.expected)),
        ["random", seed, n] => Ok(frame::file(&random::random(number("SEED", seed)?, number("N", n)?))),
        ["answers"] => answers(),
        ["inputs", seed, n, folder] => {
            let list = random::program_inputs(number("SEED", seed)?, number("N", n)?);
            write_inputs(&numbered(list), Path::new(folder)).map(|()| vec![])
        }
        ["reading", folder] => write_inputs(&inputs::inputs(), Path::new(folder)).map(|()| vec![]),
        ["pieces", file] => write_in_pieces(file).map(|()| vec![]),
        _ => Err(String::from(
            "use: fixed | names | expected | random SEED N | answers | inputs SEED N DIR | reading DIR | pieces FILE",
        )),
    }
}

fn main() {
    let arguments: Vec<String> = std::env::args().skip(1).collect();
    let outcome = run(&arguments).and_then(|bytes| {
        let mut out = io::stdout().lock();
        out.write_all(&bytes)
            .and_then(|()| out.flush())
            .map_err(|e| format!("standard output: {e}"))
    });
    if let Err(message) = outcome {
        eprintln!("peeriewick-tests: {message}");
        std::process::exit(2);
    }
}
