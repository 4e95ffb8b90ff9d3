//! An installed `openssl` on the command line, for CMAC and CBC by another
//! hand with DES-EDE3 as the cipher.

use std::io::Write;
use std::process::{Command, Stdio};

/// A DES-EDE3 key as three 64-bit numbers.
pub type Key = [u64; 3];

fn hex(bytes: &[u8]) -> String {
    bytes.iter().map(|byte| format!("{byte:02x}")).collect()
}

fn key_hex(key: Key) -> String {
    hex(&key.map(u64::to_be_bytes).concat())
}

/// What `openssl` writes when it reads `input`; none where it isn't there or
/// fails.
fn openssl(arguments: &[&str], input: &[u8]) -> Option<Vec<u8>> {
    let mut child = Command::new("openssl")
        .args(arguments)
        .stdin(Stdio::piped())
        .stdout(Stdio::piped())
        .stderr(Stdio::null())
        .spawn()
        .ok()?;
    // Small inputs: none fills a pipe, so writing all before reading is safe.
    child.stdin.take()?.write_all(input).ok()?;
    let done = child.wait_with_output().ok()?;
    done.status.success().then_some(done.stdout)
}

/// The installed version where DES-EDE3, CMAC and CBC all work.
pub fn version() -> Option<String> {
    let key = [1, 2, 3];
    cmac(key, b"")?;
    cbc(key, [0; 8], &[0; 8], true)?;
    blocks(key, &[0; 8])?;
    let line = openssl(&["version"], b"")?;
    let words: Vec<String> = String::from_utf8_lossy(&line)
        .split_whitespace()
        .take(2)
        .map(str::to_string)
        .collect();
    Some(words.join(" "))
}

/// DES-EDE3 on each block by itself.
pub fn blocks(key: Key, text: &[u8]) -> Option<Vec<u8>> {
    openssl(
        &["enc", "-des-ede3", "-nopad", "-e", "-K", &key_hex(key)],
        text,
    )
}

/// CBC of whole blocks, encrypted or decrypted.
pub fn cbc(key: Key, start: [u8; 8], text: &[u8], encrypt: bool) -> Option<Vec<u8>> {
    let way = if encrypt { "-e" } else { "-d" };
    openssl(
        &[
            "enc",
            "-des-ede3-cbc",
            "-nopad",
            way,
            "-K",
            &key_hex(key),
            "-iv",
            &hex(&start),
        ],
        text,
    )
}

/// CMAC of a message.
pub fn cmac(key: Key, message: &[u8]) -> Option<[u8; 8]> {
    let key = format!("hexkey:{}", key_hex(key));
    let line = openssl(
        &[
            "mac",
            "-cipher",
            "DES-EDE3-CBC",
            "-macopt",
            &key,
            "-in",
            "-",
            "CMAC",
        ],
        message,
    )?;
    let text = String::from_utf8(line).ok()?;
    let number = u64::from_str_radix(text.trim(), 16).ok()?;
    Some(number.to_be_bytes())
}
