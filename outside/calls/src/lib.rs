//! Random calls for tests, the fuzzer and the benchmarks: sound sheets biased to where the rules bend, and damaged ones;
//! and inputs of the program, which are calls as standard input has them.
//!
//! Everything comes from a seed, and nothing here knows how a call is answered.

pub mod bench_sheets;
pub mod damage;
pub mod inputs;
pub mod random;
pub mod sheets;

pub use random::Random;
pub use sheets::Draft;

/// The bytes of a call and the lengths of its two buffers.
#[derive(Clone, PartialEq, Eq, Debug)]
pub struct Call {
    pub sheet: Vec<u8>,
    pub list: Vec<u8>,
    pub room: usize,
    pub fate_room: usize,
}

/// 8 + m × (1 + 8 × (n + 1)): the size of a sheet of n words and m constraints.
pub fn size(n: usize, m: usize) -> usize {
    8 + m * (1 + 8 * (n + 1))
}

impl Call {
    /// A call whose buffers are just large enough.
    pub fn new(draft: &Draft, list: &[u8]) -> Call {
        Call { sheet: draft.bytes(), list: list.to_vec(), room: size(draft.n, 48), fate_room: list.len() }
    }

    /// Any call: five in six are sound.
    pub fn any(random: &mut Random) -> Call {
        if random.below(6) == 0 {
            damage::any(random)
        } else {
            Call::sound(random)
        }
    }

    /// A call that no row of the table refuses; its buffers are often just large enough, sometimes larger.
    pub fn sound(random: &mut Random) -> Call {
        let (draft, list) = sheets::any(random);
        let mut call = Call::new(&draft, &list);
        call.room += *random.pick(&[0, 0, 1, 5, 100]);
        call.fate_room += *random.pick(&[0, 0, 1, 4]);
        call
    }

    /// The call in one line: sheet and list in hex, `-` for none, then the two lengths.
    pub fn line(&self) -> String {
        format!("{} {} {} {}", hex(&self.sheet), hex(&self.list), self.room, self.fate_room)
    }

    /// The call that a line says.
    pub fn of_line(line: &str) -> Result<Call, String> {
        let parts: Vec<&str> = line.split_whitespace().collect();
        let [sheet, list, room, fate_room] = parts[..] else {
            return Err("a call is four words: sheet, list, two lengths".to_string());
        };
        let length = |s: &str| s.parse::<usize>().map_err(|e| format!("length {s}: {e}"));
        Ok(Call { sheet: unhex(sheet)?, list: unhex(list)?, room: length(room)?, fate_room: length(fate_room)? })
    }
}

/// Bytes in hex, `-` for none.
pub fn hex(bytes: &[u8]) -> String {
    if bytes.is_empty() {
        return "-".to_string();
    }
    bytes.iter().map(|b| format!("{b:02x}")).collect()
}

fn unhex(text: &str) -> Result<Vec<u8>, String> {
    if text == "-" {
        return Ok(Vec::new());
    }
    if !text.is_ascii() || !text.len().is_multiple_of(2) {
        return Err("hex comes in pairs of digits".to_string());
    }
    let pair = |i| u8::from_str_radix(&text[i..i + 2], 16).map_err(|e| format!("at digit {i}: {e}"));
    (0..text.len()).step_by(2).map(pair).collect()
}

#[cfg(test)]
mod tests {
    use super::*;

    #[test]
    fn a_line_says_its_call() {
        let mut random = Random::new(1);
        for _ in 0..1000 {
            let call = Call::any(&mut random);
            assert_eq!(Call::of_line(&call.line()), Ok(call));
        }
    }
}
