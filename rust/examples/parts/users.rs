//! The users of a realm, from the command line and from a file, for `udp_server` and
//! `turn_server`.

use crate::log;
use seatcrane_stun::auth::StoredKeys;
use seatcrane_stun::endpoint::{Server, UserError, Users};
use seatcrane_stun::types::message::LongTermCredentials;
use std::fs::File;
use std::io::{self, Read};

/// The longest line in bytes, its end included, and the longest name (RFC 8489, section 14.3).
const LONGEST: usize = 2048;
const LONGEST_NAME: usize = 513;

/// Builds a table of these users and of those in a file. If a name occurs again, the later user
/// replaces the earlier one.
pub fn table(
    server: &Server,
    pairs: &[(String, String)],
    path: Option<&str>,
) -> Result<Users, String> {
    let mut users = server.users();
    for (name, password) in pairs {
        add(&mut users, name, password).map_err(|error| error.to_string())?;
    }
    let Some(path) = path else { return Ok(users) };
    let mut bytes = Vec::new();
    let (path, read) = match path {
        "-" => ("standard input", io::stdin().read_to_end(&mut bytes)),
        path => (
            path,
            File::open(path).and_then(|mut file| file.read_to_end(&mut bytes)),
        ),
    };
    let filled = match read {
        Ok(_) => fill(users, path, &bytes),
        Err(error) => Err(format!("{path}: {error}")),
    };
    bytes.fill(0); // no passwords stay in freed memory
    filled
}

/// Adds the user of each line. Reports the number of each bad line.
fn fill(mut users: Users, path: &str, bytes: &[u8]) -> Result<Users, String> {
    let mut bad = 0;
    for (number, line) in (1..).zip(bytes.split(|byte| *byte == b'\n')) {
        let text = std::str::from_utf8(line)
            .ok()
            .filter(|line| line.len() < LONGEST);
        let text = text.ok_or_else(|| format!("{path}, line {number}: too long, or not UTF-8"))?;
        match add_line(&mut users, text.trim_end_matches('\r')) {
            Ok(true) => {}
            Ok(false) => {
                let expected = "expected `NAME PASSWORD`";
                log::complain(format_args!("{path}, line {number}: {expected}"));
                bad += 1;
            }
            Err(error) => {
                drop(users); // so that there is memory for the text
                return Err(format!("{path}, line {number}: {error}"));
            }
        }
    }
    match bad {
        0 => Ok(users),
        _ => Err(format!("{path}: bad lines: {bad}")),
    }
}

/// Adds the user of a line, or returns `false` if the line is wrong.
fn add_line(users: &mut Users, line: &str) -> Result<bool, UserError> {
    if line.is_empty() || line.starts_with('#') {
        return Ok(true);
    }
    let Some((name, rest)) = line.split_once([' ', '\t']) else {
        return Ok(false);
    };
    if name.is_empty() || name.len() > LONGEST_NAME || rest.is_empty() {
        return Ok(false);
    }
    match stored_keys(rest) {
        Some(keys) => users.add_with_keys(owned(name)?, keys)?,
        None => add(users, name, rest)?,
    }
    Ok(true)
}

fn add(users: &mut Users, name: &str, password: &str) -> Result<(), UserError> {
    users.add(LongTermCredentials::new(owned(name)?, owned(password)?))
}

/// Returns a copy, or an error if there is no memory for it.
fn owned(text: &str) -> Result<String, UserError> {
    let mut copy = String::new();
    copy.try_reserve_exact(text.len())
        .map_err(|_| UserError::OutOfMemory)?;
    copy.push_str(text);
    Ok(copy)
}

/// Returns the keys in `0xKEY [0xKEY]`.
fn stored_keys(text: &str) -> Option<StoredKeys> {
    let mut keys = StoredKeys::new();
    for word in text.split([' ', '\t']) {
        let digits = word.strip_prefix("0x")?;
        match digits.len() {
            32 => keys.sha1 = Some(bytes_of(digits)?),
            64 => keys.sha256 = Some(bytes_of(digits)?),
            _ => return None,
        }
    }
    Some(keys)
}

/// Parses `N` bytes, each of two hexadecimal digits.
pub fn bytes_of<const N: usize>(digits: &str) -> Option<[u8; N]> {
    let mut bytes = [0; N];
    if digits.len() != 2 * N {
        return None;
    }
    for (byte, pair) in bytes.iter_mut().zip(digits.as_bytes().chunks(2)) {
        let [high, low] = pair.try_into().ok()?;
        let value = |digit: u8| char::from(digit).to_digit(16);
        *byte = (value(high)? << 4 | value(low)?) as u8;
    }
    Some(bytes)
}
