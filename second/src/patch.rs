//! Patches: single bytes that are changed, of an image or of a session's bytes.

/// A new byte at an offset.
#[derive(Clone, Copy, Debug, PartialEq, Eq)]
pub struct Patch {
    pub at: usize,
    pub byte: u8,
}

/// Puts the patches, one after another; "one whose offset is past the end changes nothing".
pub fn put_patches(bytes: &mut [u8], patches: &[Patch]) {
    for patch in patches {
        if let Some(byte) = bytes.get_mut(patch.at) {
            *byte = patch.byte;
        }
    }
}

/// The patches that make one of the other, as far as both go.
pub fn difference(old: &[u8], new: &[u8]) -> Vec<Patch> {
    let pairs = old.iter().zip(new).enumerate();
    pairs
        .filter(|(_, (before, after))| before != after)
        .map(|(at, (_, &byte))| Patch { at, byte })
        .collect()
}
