//! What the program for two positions is to reply, and what it does.

use super::draw::Pair;
use crate::proved::piped;
use crate::rules::compared::{compared, differing, Comparison};
use crate::rules::table::Position;
use std::ffi::OsStr;
use std::io;
use std::os::unix::ffi::OsStrExt;
use std::process::Stdio;

pub const FIRST_REFUSED: &str = "the first word refused";
pub const SECOND_REFUSED: &str = "the second word refused";

/// Every kind of reply.
pub const KINDS: [&str; 6] = ["same", "below", "above", "neither", FIRST_REFUSED, SECOND_REFUSED];

/// What is said of a word that is no position, after which of the two it is.
const NO_POSITION: &str =
    " word is not a position: eight digits, one for each state, its count + 1, or 0 where no run is\n";

#[derive(Clone, PartialEq)]
pub struct Reply {
    pub success: bool,
    /// On standard output.
    pub printed: Vec<u8>,
    /// On standard error.
    pub said: Vec<u8>,
}

/// "As 8 bytes in the winners' form", here as digits: each count + 1, and so 0 where no run is.
pub fn position(word: &[u8]) -> Option<Position> {
    let counts: Option<Vec<i8>> =
        word.iter().map(|byte| byte.is_ascii_digit().then(|| (byte - b'0') as i8 - 1)).collect();
    counts?.try_into().ok()
}

fn positions(pair: &Pair) -> Result<(Position, Position), &'static str> {
    let first = position(&pair.first).ok_or(FIRST_REFUSED)?;
    let second = position(&pair.second).ok_or(SECOND_REFUSED)?;
    Ok((first, second))
}

/// The kind of reply that is due.
pub fn kind(pair: &Pair) -> &'static str {
    match positions(pair) {
        Err(refused) => refused,
        Ok((first, second)) => match compared(&first, &second) {
            Comparison::Same => "same",
            Comparison::Below => "below",
            Comparison::Above => "above",
            Comparison::Neither => "neither",
        },
    }
}

/// The word and the states that differ on one line; or nothing, and a sentence on standard error.
fn expected(pair: &Pair) -> Reply {
    let (mut printed, mut said) = (String::new(), String::new());
    match positions(pair) {
        Ok((first, second)) => {
            let states = differing(&first, &second);
            let states: String = states.iter().map(|state| format!(" {state}")).collect();
            printed = format!("{}{states}\n", kind(pair));
        }
        Err(FIRST_REFUSED) => said = format!("The first{NO_POSITION}"),
        Err(_) => said = format!("The second{NO_POSITION}"),
    }
    Reply { success: true, printed: printed.into(), said: said.into() }
}

/// What the program replies.
pub fn heard(line: &str, pair: &Pair) -> io::Result<Reply> {
    let mut command = piped(line);
    command.args([&pair.first, &pair.second].map(|word| OsStr::from_bytes(word)));
    let output = command.stdin(Stdio::null()).stderr(Stdio::piped()).output()?;
    let success = output.status.success();
    Ok(Reply { success, printed: output.stdout, said: output.stderr })
}

/// What is wrong with a reply, if anything is.
pub fn fault(pair: &Pair, reply: &Reply) -> Option<String> {
    let due = expected(pair);
    let shown = |bytes: &[u8]| bytes.escape_ascii().to_string();
    if !reply.success {
        return Some("the program failed".to_string());
    }
    if reply.printed != due.printed {
        return Some(format!("printed '{}' for '{}'", shown(&reply.printed), shown(&due.printed)));
    }
    (reply.said != due.said)
        .then(|| format!("said '{}' for '{}'", shown(&reply.said), shown(&due.said)))
}
