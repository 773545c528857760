//! W11, re-authorization at the gateway: by hand in bytes, then its laws on calls and whole
//! circles by chance.

mod by_hand;
mod by_the_paper;
mod laws;

/// Reads bytes written as pairs of hexadecimal digits.
fn hex(text: &str) -> Vec<u8> {
    let digits: Vec<u8> = text.bytes().filter(|b| !b.is_ascii_whitespace()).collect();
    let pair = |p: &[u8]| u8::from_str_radix(std::str::from_utf8(p).unwrap(), 16).unwrap();
    digits.chunks(2).map(pair).collect()
}
