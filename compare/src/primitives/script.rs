//! Scripts, which are made case by case with the original's answers, and what is
//! printed for them.

use super::case::{Case, ANSWERS, LONGEST, MAGIC, PICTURE};
use super::lent::Lent;
use super::original::Original;
use super::tally::Tally;
use crate::overflow::Overflow;

/// A script that is being made, with the original's answer to each case.
pub struct Script {
    original: Original,
    pub cases: Vec<Case>,
    pub answers: Vec<String>,
}

impl Script {
    pub fn new() -> Self {
        Self { original: Original::new(), cases: Vec::new(), answers: Vec::new() }
    }

    /// The surface after the cases so far.
    pub fn surface(&self) -> Lent {
        self.original.surface()
    }

    /// The bytes that the next operation is lent.
    pub fn lent(&self) -> Lent {
        self.original.lent()
    }

    /// Adds the case, or drops it if a sum of the original overflows.
    pub fn push(&mut self, case: Case, tally: &mut Tally) {
        let Ok(outcome) = self.original.answer(&case) else {
            return tally.drop_one();
        };
        tally.count(&case, &outcome, self.original.target(&case));
        self.cases.push(case);
        self.answers.push(outcome.line);
    }

    /// The script as bytes, in mode 0.
    pub fn bytes(&self) -> Vec<u8> {
        let mut bytes = MAGIC.to_vec();
        bytes.push(ANSWERS);
        self.cases.iter().for_each(|case| case.write(&mut bytes));
        bytes
    }

    /// The answers, one line each.
    pub fn lines(&self) -> Vec<u8> {
        self.answers.iter().flat_map(|answer| format!("{answer}\n").into_bytes()).collect()
    }
}

/// What is printed for a script; an error if a sum of the original overflows.
pub fn answers(script: &[u8]) -> Result<Vec<u8>, String> {
    let (mode, mut rest) = match script.strip_prefix(MAGIC) {
        Some([mode @ (ANSWERS | PICTURE), rest @ ..]) if script.len() <= LONGEST => (*mode, rest),
        _ => return Ok(b"bad script\n".to_vec()),
    };
    let mut original = Original::new();
    let mut out = Vec::new();
    while !rest.is_empty() {
        let Some(case) = Case::read(&mut rest) else {
            out.extend_from_slice(b"bad case\n");
            return Ok(out);
        };
        let outcome = original
            .answer(&case)
            .map_err(|Overflow| format!("the original's sums overflow, no answer: {case}"))?;
        if mode == ANSWERS {
            out.extend_from_slice(outcome.line.as_bytes());
            out.push(b'\n');
        }
    }
    if mode == PICTURE {
        out = original.picture();
    }
    Ok(out)
}

#[cfg(test)]
mod tests {
    use super::*;
    use crate::argument::Units;

    fn printed(mode: u8, cases: &[u8]) -> String {
        let script = [MAGIC.as_slice(), &[mode], cases].concat();
        String::from_utf8(answers(&script).unwrap()).unwrap()
    }

    fn bytes(case: Case) -> Vec<u8> {
        let mut bytes = Vec::new();
        case.write(&mut bytes);
        bytes
    }

    fn surface(width: u16, height: u16) -> Vec<u8> {
        bytes(Case::Surface { width, height, seed: 0 })
    }

    fn source(src_len: u16) -> Vec<u8> {
        let (dx, dy, sx, sy, w, h) = (1, 1, 1, 1, 1, 1);
        let (src_w, src_h, seed, code, pattern) = (0, u32::MAX, 1, 0, 0);
        bytes(Case::Blit { dx, dy, sx, sy, w, h, src_w, src_h, src_len, seed, code, pattern })
    }

    fn text(count: u32, units: Vec<u16>) -> Vec<u8> {
        let units = Units::new(units).unwrap();
        bytes(Case::Text { x: 0, y: 0, color: 0, count, stop: 0, units })
    }

    fn lend(len: u32) -> Vec<u8> {
        bytes(Case::Lend { width: u32::MAX, height: 0, len })
    }

    fn between(order: u8, sides: [u16; 4]) -> Vec<u8> {
        bytes(Case::copy_between(order, sides, [0; 4], [0; 2]))
    }

    #[test]
    fn a_wrong_header_is_a_bad_script() {
        for script in [b"".as_slice(), b"PRM2", b"PRM1\0", b"PRM2\x02", b"prm2\0\x06\0"] {
            assert_eq!(answers(script).unwrap(), b"bad script\n");
        }
        assert_eq!(printed(ANSWERS, &[]), "");
        assert_eq!(printed(PICTURE, &[0x06, 0].repeat(LONGEST / 2 - 2)), "bad script\n");
    }

    #[test]
    fn a_bad_case_ends_the_answers() {
        let cut_short = |mut case: Vec<u8>| {
            case.pop();
            case
        };
        let bad = [
            vec![0x00],
            vec![0x08],
            vec![0x1A],
            vec![0x06, 95],
            cut_short(bytes(Case::Pack { colorref: 0 })),
            cut_short(surface(1, 1)),
            cut_short(text(1, vec![0x41, 0x42])),
            surface(0, 1),
            surface(1, 0),
            surface(4097, 1),
            surface(1, 4097),
            surface(241, 320),
            source(8193),
            text(65_601, vec![0x41]),
            text(1, vec![]),
            lend(153_601),
            between(2, [1, 1, 1, 1]),
            between(0, [0, 1, 1, 1]),
            between(0, [1, 1, 1, 4097]),
            between(1, [240, 319, 241, 1]),
        ];
        for case in bad {
            // Nothing follows, so that the case is really cut short.
            let script = [vec![0x06, 0], case].concat();
            let lines = printed(ANSWERS, &script);
            assert_eq!(lines, "06 0000000000000000\nbad case\n", "{script:?}");
            assert_eq!(printed(PICTURE, &script), "bad case\n", "{script:?}");
        }
    }

    #[test]
    fn the_ends_of_each_range_are_good() {
        let good = [
            surface(240, 320),
            surface(4096, 18),
            surface(18, 4096),
            source(8192),
            text(65_600, vec![0x41; 255]),
            text(0, vec![0]),
            lend(153_600),
            lend(0),
            between(0, [240, 319, 240, 1]),
            between(1, [1, 1, 1, 4096]),
        ];
        for case in good {
            let lines = printed(ANSWERS, &case);
            assert!(lines.lines().count() == 1 && !lines.contains("bad"), "{case:?}");
        }
    }

    #[test]
    fn the_picture_is_the_surface() {
        let fill = bytes(Case::Fill { x: 0, y: 0, w: 1, h: 1, color: 0x6162 });
        assert_eq!(printed(PICTURE, &fill), "P6\n1 1\n255\nc,\x10");
        // The same if other bytes are lent afterwards.
        let script = [surface(2, 1), lend(0), fill].concat();
        assert_eq!(printed(PICTURE, &script), "P6\n2 1\n255\n\0\0\0\0\0\0");
    }
}
