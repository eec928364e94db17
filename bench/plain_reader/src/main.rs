//! `plain_reader QUERY WALLET` prints what `vpwallet list QUERY WALLET` prints, as far as the queries of bench/read go.

mod base64url;
mod cbor;
mod cose;
mod date;
mod jws;
mod marks;
mod mdoc;
mod query;
mod sd_jwt;

use query::Path;
use std::process::exit;

/// Why a credential is not read: the number of the first rule that it breaks.
pub type Rule = u8;

const CREDENTIAL_LIMIT: usize = 262_144;

fn main() {
    let words: Vec<String> = std::env::args().collect();
    let [_, query, wallet] = words.as_slice() else {
        fail("usage", 2);
    };
    let Some(path) = Path::from_query(&read_file(query)) else {
        fail("not a query of this benchmark", 1);
    };
    let wallet = String::from_utf8(read_file(wallet)).expect("the wallet file is a text");

    let mut printed = String::new();
    let mut any_match = false;
    for (number, line) in wallet.lines().enumerate() {
        let (format, file) = line.split_once(' ').expect("a format and a file");
        match judge(format, &read_file(file), &path) {
            Ok(true) => {
                any_match = true;
                printed += &format!("match {number}\n");
            }
            Ok(false) => {}
            Err(rule) => printed += &format!("note {number} unreadable {rule}\n"),
        }
    }
    printed += if any_match { "end\n" } else { "none\n" };
    print!("{printed}");
    exit(if any_match { 0 } else { 5 });
}

/// Whether a credential has what the path asks for.
fn judge(format: &str, bytes: &[u8], path: &Path) -> Result<bool, Rule> {
    if bytes.len() > CREDENTIAL_LIMIT {
        fail("too long", 14);
    }
    let text = std::str::from_utf8(bytes).map_err(|_| 0)?;
    let text = text.strip_suffix('\n').unwrap_or(text);
    match format {
        "dc+sd-jwt" => Ok(path.has_hit(&sd_jwt::read(text)?)),
        "mso_mdoc" => {
            let bytes = base64url::decode(text).ok_or(0)?;
            Ok(mdoc::read(&bytes)?.has_hit(path))
        }
        _ => fail("an unknown format", 12),
    }
}

fn read_file(name: &str) -> Vec<u8> {
    std::fs::read(name).unwrap_or_else(|_| fail("read fault", 6))
}

fn fail(message: &str, status: i32) -> ! {
    println!("{message}");
    exit(status)
}
