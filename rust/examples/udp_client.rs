//! Asks a STUN server over UDP (RFC 8489) for the address from which it sees this client, and
//! prints it.
//!
//!     udp_client HOST PORT [NAME PASSWORD] [--user FILE] [--sha256] [--within SECONDS]
//!
//! Without a name it accepts an unsigned answer. With a name it accepts only an answer that the
//! server signed. FILE, or standard input if FILE is `-`, has a line `NAME PASSWORD`. Write `--`
//! before a password that begins with `-`, because arguments after `--` are not options. The status
//! is 0 after a success, 1 after a failure, with the reason on standard error (`no answer`,
//! `refused ..` or `failed ..`), and 2 for wrong arguments.

#[path = "client/asker.rs"]
mod asker;

use asker::{Arguments, Asker, arguments, find};
use seatcrane_stun::endpoint::{Body, Client, Credentials};
use seatcrane_stun::types::message::{BINDING, IntegrityAlgorithm};
use std::error::Error;
use std::io::{Read, stdin};
use std::process::ExitCode;

const USAGE: &str =
    "udp_client HOST PORT [NAME PASSWORD] [--user FILE] [--sha256] [--within SECONDS]";

/// Returns the name and the password for the request, if there are any. If a file is given, they
/// are in its last line. A file without a user is an error, because a user who names a file does
/// not want an unsigned answer.
fn credentials(arguments: &Arguments) -> Result<Credentials, Box<dyn Error>> {
    let Some(path) = &arguments.file else {
        let pair = arguments.left.get(2..4);
        return Ok(pair.map_or(Credentials::none(), |pair| {
            Credentials::long_term(&*pair[0], &*pair[1])
        }));
    };
    let mut text = String::new();
    match path.as_str() {
        "-" => drop(stdin().read_to_string(&mut text)?),
        path => text = std::fs::read_to_string(path)?,
    }
    let line = text.lines().rfind(|line| !line.is_empty());
    let line = line.ok_or("failed: nobody in the file")?;
    let (name, password) = line
        .split_once([' ', '\t'])
        .ok_or("failed: a line is `NAME PASSWORD`")?;
    Ok(Credentials::long_term(name, password))
}

/// Asks the server for the address of this client, and prints it.
fn print_address(arguments: &Arguments) -> Result<(), Box<dyn Error>> {
    let server = find(&arguments.left[0], &arguments.left[1])?;
    let mut settings = Client::builder(server).credentials(credentials(arguments)?);
    if !arguments.has_sha256 {
        settings = settings.algorithms(&[IntegrityAlgorithm::Sha1]);
    }
    let mut asker = Asker::new(server, settings, arguments.within)?;
    let response = asker.ask(BINDING, Body::new())?;
    let address = response.message().xor_mapped_address();
    println!("{}", address.map_err(|error| format!("failed: {error}"))?);
    Ok(())
}

fn main() -> ExitCode {
    let is_right =
        |words: &Arguments| words.left.len() == 2 || words.left.len() == 4 && words.file.is_none();
    let arguments = arguments(60.0, &["--sha256", "--user"]).filter(is_right);
    asker::run(USAGE, arguments, print_address)
}
