//! Inputs of the program that differ from a given one by one byte, or that end
//! early.

/// How an input came about, and its bytes.
pub type Labelled = (String, Vec<u8>);

/// What a byte is replaced by: bytes with a meaning in the format, a digit and
/// letters next to those that have one, the other case, the next byte.
fn replacements(byte: u8) -> Vec<u8> {
    let mut others = vec![
        b'\n',
        b' ',
        b'1',
        b'F',
        b'G',
        byte ^ 0x20,
        byte.wrapping_add(1),
    ];
    others.sort_unstable();
    others.dedup();
    others.retain(|&other| other != byte);
    others
}

/// What is inserted before each byte and at the end.
const INSERTED: [u8; 3] = [b'\n', b' ', b'0'];

/// Every byte replaced, every byte deleted, a byte inserted at every place, and
/// every beginning of the text.
pub fn one_byte_damages(text: &[u8]) -> Vec<Labelled> {
    let mut inputs = vec![];
    let mut push = |label: &str, parts: &[&[u8]]| inputs.push((label.to_string(), parts.concat()));
    for place in 0..=text.len() {
        let (before, after) = text.split_at(place);
        for inserted in INSERTED {
            push("byte inserted", &[before, &[inserted], after]);
        }
        let Some((&byte, rest)) = after.split_first() else {
            break;
        };
        for other in replacements(byte) {
            push("byte replaced", &[before, &[other], rest]);
        }
        push("byte deleted", &[before, rest]);
        push("cut short", &[before]);
    }
    inputs
}
