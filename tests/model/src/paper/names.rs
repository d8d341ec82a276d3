//! Names: eleven bytes, name and type, compared and tested without top bits.

pub type Name = [u8; 11];

/// 3FH, the byte of a pattern that matches any byte.
pub const ANY: u8 = 0x3F;

pub fn without_top_bits(bytes: &[u8]) -> Name {
    let mut name = [0u8; 11];
    for (to, from) in name.iter_mut().zip(bytes) {
        *to = from & 0x7F;
    }
    name
}

/// The inspection's byte rule, top bits ignored: 20H..7EH and not 3FH, the
/// first not 20H.
pub fn is_name(bytes: &[u8]) -> bool {
    is_pattern(bytes) && !without_top_bits(bytes).contains(&ANY)
}

/// The same rule with 3FH allowed.
pub fn is_pattern(bytes: &[u8]) -> bool {
    let name = without_top_bits(bytes);
    name.iter().all(|byte| (0x20..=0x7E).contains(byte)) && name[0] != 0x20
}

/// The characters that (iv) of the requests forbids in a new name.
const FORBIDDEN: &[u8] = b"<>.,;:=*[]";

/// Whether the command line could name it, top bits ignored: no small letter, no
/// forbidden character, and no blank before a later non-blank within the name or
/// within the type.
pub fn can_be_typed(bytes: &[u8]) -> bool {
    let name = without_top_bits(bytes);
    let refused = |byte: &u8| byte.is_ascii_lowercase() || FORBIDDEN.contains(byte);
    !name.iter().any(refused) && blanks_stand_last(&name[..8]) && blanks_stand_last(&name[8..])
}

fn blanks_stand_last(field: &[u8]) -> bool {
    field.iter().skip_while(|&&byte| byte != b' ').all(|&byte| byte == b' ')
}

/// Whether a name in the directory matches; only the pattern's 3FH is a
/// wildcard.
pub fn matches(pattern: &[u8], name: &[u8]) -> bool {
    let pattern = without_top_bits(pattern);
    let name = without_top_bits(name);
    (0..11).all(|i| pattern[i] == ANY || pattern[i] == name[i])
}
