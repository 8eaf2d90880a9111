//! The programs `floorplan` and `floormap`, as the repository's build leaves them in `target/bin`, and rows of what they are
//! to write. Tabs are shown as spaces.

use std::path::Path;
use std::process::Command;

use crate::child::{finish, piped, Ended};
use crate::examples::tabs;

const FLOORPLAN: &str = concat!(env!("CARGO_MANIFEST_DIR"), "/../target/bin/floorplan");
const FLOORMAP: &str = concat!(env!("CARGO_MANIFEST_DIR"), "/../target/bin/floormap");

/// Where the planning program is.
pub fn floorplan() -> &'static str {
    assert!(Path::new(FLOORPLAN).is_file(), "there is no {FLOORPLAN}: `./floorplan` builds it");
    FLOORPLAN
}

/// Where the program is that reads maps.
pub fn floormap() -> &'static str {
    assert!(Path::new(FLOORMAP).is_file(), "there is no {FLOORMAP}: `./floormap` builds it");
    FLOORMAP
}

/// An input, in the pieces in which it comes, and all that the program is to write.
pub struct Row {
    pub name: String,
    pub pieces: Vec<Vec<u8>>,
    pub expected: Vec<u8>,
}

impl Row {
    /// The same in pieces of this length.
    pub fn in_pieces(self, length: usize) -> Row {
        Row { pieces: self.pieces.concat().chunks(length).map(|piece| piece.to_vec()).collect(), ..self }
    }
}

pub fn row(name: &str, input: Vec<u8>, expected: &str) -> Row {
    Row { name: name.to_string(), pieces: vec![input], expected: tabs(expected) }
}

pub fn refused(name: &str, input: Vec<u8>, number: u8, line: usize) -> Row {
    row(name, input, &format!("REFUSED {number} {line}\n"))
}

/// Runs the program on each input, and tells all that differs.
pub fn assert_rows(program: &str, rows: Vec<Row>) {
    let faults: Vec<String> = rows.into_iter().filter_map(|row| fault(program, row)).collect();
    assert!(faults.is_empty(), "\n{}", faults.join("\n"));
}

fn fault(program: &str, row: Row) -> Option<String> {
    let child = piped(Command::new(program)).spawn().expect("a program that starts");
    let Ended { status, out, err } = finish(child, row.pieces).expect("a program that ends");
    if status.code() == Some(0) && err.is_empty() && out == row.expected {
        return None;
    }
    let [out, err, expected] = [&out, &err, &row.expected].map(|bytes| start_of(bytes));
    Some(format!("{}: {out}, {status}, {err} on standard error; expected {expected}", row.name))
}

fn start_of(bytes: &[u8]) -> String {
    let start = String::from_utf8_lossy(&bytes[..bytes.len().min(60)]);
    format!("{start:?} ({} bytes)", bytes.len())
}
