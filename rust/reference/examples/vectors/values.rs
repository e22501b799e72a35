//! Values as text.

/// The bytes of hexadecimal digits, two a byte.
pub fn from_hex(text: &str) -> Result<Vec<u8>, String> {
    let digits = text
        .chars()
        .map(|c| c.to_digit(16).ok_or(format!("not hexadecimal: {text}")))
        .collect::<Result<Vec<_>, _>>()?;
    if digits.len() % 2 == 1 {
        return Err(format!("half a byte: {text}"));
    }
    let bytes = digits.chunks(2).map(|pair| (pair[0] * 16 + pair[1]) as u8);
    Ok(bytes.collect())
}

/// The hexadecimal digits of bytes.
pub fn to_hex(bytes: &[u8]) -> String {
    bytes.iter().map(|byte| format!("{byte:02x}")).collect()
}

/// A decimal number.
pub fn number<T: std::str::FromStr>(text: &str) -> Result<T, String> {
    text.trim()
        .parse()
        .map_err(|_| format!("not a number: {text}"))
}
