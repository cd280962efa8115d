//! File and disc names, as typed and as stored.

pub const NAME_BYTES: usize = 9;
const BASE_BYTES: usize = 6;

/// Nine name bytes as stored: six of name and three of extension, or a disc
/// name, padded with spaces on the right.
#[derive(Debug, Clone, Copy, PartialEq, Eq, PartialOrd, Ord)]
pub struct Name(pub [u8; NAME_BYTES]);

impl Name {
    /// A file name as typed: 1 to 6 characters, then nothing, or a dot and 1
    /// to 3 more.
    pub fn of_file(typed: &[u8]) -> Option<Name> {
        let (base, extension) = match typed.iter().position(|&byte| byte == b'.') {
            Some(dot) => (&typed[..dot], Some(&typed[dot + 1..])),
            None => (typed, None),
        };
        let mut stored = [b' '; NAME_BYTES];
        fill(&mut stored[..BASE_BYTES], base)?;
        if let Some(extension) = extension {
            fill(&mut stored[BASE_BYTES..], extension)?;
        }
        Some(Name(stored))
    }

    /// A disc name as typed: 1 to 9 characters.
    pub fn of_disc(typed: &[u8]) -> Option<Name> {
        let mut stored = [b' '; NAME_BYTES];
        fill(&mut stored, typed)?;
        Some(Name(stored))
    }

    /// The name bytes at the front of a directory entry.
    pub fn stored(entry: &[u8]) -> Name {
        let mut name = [0; NAME_BYTES];
        name.copy_from_slice(&entry[..NAME_BYTES]);
        Name(name)
    }

    /// Whether some file name as typed is stored like this.
    pub fn is_padded_file_name(&self) -> bool {
        let (base, extension) = self.0.split_at(BASE_BYTES);
        is_legal(base[0]) && is_padded(base) && is_padded(extension)
    }
}

fn is_legal(byte: u8) -> bool {
    byte.is_ascii_uppercase() || byte.is_ascii_digit()
}

/// Puts at least one and at most `field.len()` legal characters into a field.
fn fill(field: &mut [u8], typed: &[u8]) -> Option<()> {
    let legal = !typed.is_empty() && typed.iter().all(|&byte| is_legal(byte));
    let front = field.get_mut(..typed.len()).filter(|_| legal)?;
    front.copy_from_slice(typed);
    Some(())
}

/// Whether only spaces follow the legal characters at the front.
fn is_padded(field: &[u8]) -> bool {
    field
        .iter()
        .skip_while(|&&byte| is_legal(byte))
        .all(|&byte| byte == b' ')
}
