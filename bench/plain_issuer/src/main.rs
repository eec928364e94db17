//! `plain_issuer SPEC` prints what `vpbench issue SPEC` prints, for a spec that breaks no rule.

mod cbor;
mod keys;
mod mdoc;
mod sd_jwt;

use serde_json::Value;

fn main() {
    let name = std::env::args().nth(1).expect("a file name");
    let text = std::fs::read(name).expect("a file");
    let spec: Value = serde_json::from_slice(&text).expect("a JSON text");
    let issued = match spec["format"].as_str() {
        Some("dc+sd-jwt") => sd_jwt::issue(&spec),
        Some("mso_mdoc") => mdoc::issue(&spec),
        _ => panic!("no such format"),
    };
    println!("{issued}");
}
