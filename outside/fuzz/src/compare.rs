//! One call made of the model and of the other, with guard bytes around both buffers.

use calls::{hex, Call, Random};

/// Who is compared with the model.
pub const OTHER: &str = if cfg!(feature = "library") { "the library" } else { "the twin" };

/// Bytes before and after each buffer, which no call may touch.
const GUARD: usize = 64;

pub struct Outcome {
    pub wanted: model::Answer,
    /// The model's answer and fates.
    pub answer: Vec<u8>,
    pub fates: Vec<u8>,
    pub difference: Option<String>,
}

#[cfg(feature = "library")]
fn other(sheet: &[u8], list: &[u8], out: &mut [u8], fates: &mut [u8]) -> model::Answer {
    match vietoluyn::hide(sheet, list, out, fates) {
        Ok(accepted) => model::Answer { refused: 0, length: accepted.length, walks: accepted.walks },
        Err(refusal) => model::Answer { refused: refusal.number(), length: 0, walks: 0 },
    }
}

#[cfg(not(feature = "library"))]
fn other(sheet: &[u8], list: &[u8], out: &mut [u8], fates: &mut [u8]) -> model::Answer {
    let twin::Answer { refused, length, walks } = twin::hide(sheet, list, out, fates);
    model::Answer { refused, length, walks }
}

/// Makes the call of both, over buffers that hold the same random bytes, and compares everything that can be seen: the
/// result, both buffers whole, the guards around them, and the input, which is only lent.
pub fn run(call: &Call, seed: u64) -> Outcome {
    let mut random = Random::new(seed);
    let mut filled = |room: usize| -> Vec<u8> { (0..room + 2 * GUARD).map(|_| random.bits() as u8).collect() };
    let (mut out, mut fates) = (filled(call.room), filled(call.fate_room));
    let (mut other_out, mut other_fates) = (out.clone(), fates.clone());
    let (sheet, list) = (call.sheet.clone(), call.list.clone());

    let wanted = model::hide(&call.sheet, &call.list, middle(&mut out), middle(&mut fates));
    let given = other(&sheet, &list, middle(&mut other_out), middle(&mut other_fates));

    let difference = if given != wanted {
        Some(format!("the model returns {wanted:?}, {OTHER} {given:?}"))
    } else if out != other_out {
        Some(bytes("sheet", &out, &other_out))
    } else if fates != other_fates {
        Some(bytes("fate", &fates, &other_fates))
    } else if sheet != call.sheet || list != call.list {
        Some(format!("{OTHER} wrote to its input"))
    } else {
        None
    };
    let answer = middle(&mut out)[..wanted.length].to_vec();
    let listed = if wanted.refused == 0 { call.list.len() } else { 0 };
    let fates = middle(&mut fates)[..listed].to_vec();
    Outcome { wanted, answer, fates, difference }
}

fn middle(buffer: &mut [u8]) -> &mut [u8] {
    let end = buffer.len() - GUARD;
    &mut buffer[GUARD..end]
}

fn bytes(which: &str, wanted: &[u8], given: &[u8]) -> String {
    let first = wanted.iter().zip(given).position(|(a, b)| a != b).unwrap_or(0);
    let at = first as isize - GUARD as isize;
    let (wanted, given) = (hex(wanted), hex(given));
    format!(
        "the {which} buffer, first at byte {at} of it (guards of {GUARD} bytes shown)\nmodel: {wanted}\nother: {given}"
    )
}
