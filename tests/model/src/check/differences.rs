//! Differences in words.

/// Where something differs from the model.
#[derive(Clone, PartialEq, Eq, Debug)]
pub struct Difference {
    /// The call and what differs, with the first byte.
    pub what: String,
    /// Everything about that call, for finding out.
    pub details: Vec<String>,
}

/// The first byte in which two runs of bytes differ.
pub fn bytes_differ(name: &str, got: &[u8], model: &[u8]) -> Option<String> {
    if got == model {
        return None;
    }
    if got.len() != model.len() {
        return Some(format!("the {} has {} bytes, by the model {}", name, got.len(), model.len()));
    }
    let at = (0..got.len()).find(|&at| got[at] != model[at])?;
    Some(format!("byte {} of the {} is {:02X}, by the model {:02X}", at, name, got[at], model[at]))
}

pub fn numbers_differ(name: &str, got: u32, model: u32) -> Option<String> {
    (got != model).then(|| format!("the {} is {}, by the model {}", name, got, model))
}
