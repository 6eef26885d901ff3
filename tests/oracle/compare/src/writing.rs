//! Texts that the port writes, in lent ones of several lengths: the answer, the bytes written, and that all others stay.
use crate::check::{same, Outcome};
use crate::port::{self, Written};

/// Of long texts the part around the first difference is shown.
fn same_bytes(what: &str, expected: &[u8], got: &[u8]) -> Outcome {
    if expected == got {
        return Ok(());
    }
    let at = expected.iter().zip(got).take_while(|(one, other)| one == other).count();
    let shown = |text: &[u8]| text[at.saturating_sub(1_000)..(at + 1_000).min(text.len())].escape_ascii().to_string();
    Err(format!("{what}, byte {at}\n    expected \"{}\"\n    the port \"{}\"", shown(expected), shown(got)))
}

/// Writing into a text that has more than enough room, just enough, one byte less, and none.
pub fn writes(what: &str, text: Result<&[u8], (u64, u64)>, write: &dyn Fn(usize, &mut [u8]) -> Written) -> Outcome {
    let length = text.map_or(64, |text| text.len());
    let mut rooms = vec![length + 2, length, 0];
    rooms.extend(length.checked_sub(1));
    rooms.into_iter().try_for_each(|room| writes_into(what, room, text, write))
}

/// Writing into a text of so much room.
pub fn writes_into(what: &str, room: usize, text: Result<&[u8], (u64, u64)>, write: &dyn Fn(usize, &mut [u8]) -> Written) -> Outcome {
    let mut left = port::lent_text(room);
    let answer = match text {
        Err((refusal, detail)) => Written { refusal, detail, written: 0 },
        Ok(text) if room < text.len() => Written { refusal: 23, detail: 0, written: 0 },
        Ok(text) => {
            left[..text.len()].copy_from_slice(text);
            Written { refusal: 0, detail: 0, written: text.len() as u64 }
        }
    };
    let mut lent = port::lent_text(room);
    let got = write(room, &mut lent);
    same(&format!("{what}, room {room}"), &answer, &got)?;
    same_bytes(&format!("text of {what}, room {room}"), &left, &lent)
}
