//! Bytes as hex digits.

/// Two lower-case hex digits for each byte.
pub fn digits_of(bytes: &[u8]) -> String {
    bytes.iter().map(|byte| format!("{byte:02x}")).collect()
}

/// The bytes of hex digits, two for each; none where that is not what there is.
pub fn bytes_of(digits: &[u8]) -> Option<Vec<u8>> {
    match digits.as_chunks::<2>() {
        (pairs, []) => pairs.iter().map(byte_of).collect(),
        _ => None,
    }
}

fn byte_of([high, low]: &[u8; 2]) -> Option<u8> {
    let digit = |character: u8| char::from(character).to_digit(16);
    u8::try_from(digit(*high)? * 16 + digit(*low)?).ok()
}
