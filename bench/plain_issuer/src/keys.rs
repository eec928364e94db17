//! The keys of the bench.

use sha2::{Digest, Sha256};

const KEYS: [(&str, u8); 5] = [
    (r#"kid:["https://pid.example","p1"]"#, 1),
    ("mkid:6d31", 2),
    (r#"jwk:{"crv":"P-256","kty":"EC","x":"AQ","y":"Ag"}"#, 3),
    ("cose:a401022001214101224102", 4),
    (r#"kid:["rp.example","r1"]"#, 5),
];

/// The signature of a message by the key of this name.
pub fn sign(name: &str, message: &[u8]) -> Vec<u8> {
    let (_, byte) = KEYS.iter().find(|(key, _)| *key == name).expect("the key is held");
    let mut hash = Sha256::new();
    hash.update([*byte; 32]);
    hash.update(message);
    hash.finalize().to_vec()
}
