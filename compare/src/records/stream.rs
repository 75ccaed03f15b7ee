//! Streams of records, and what is printed for them.

use super::record::Record;
use super::tally::Tally;

pub const MAGIC: &[u8; 4] = b"REC2";
/// The length of the longest stream.
pub const LONGEST: usize = 1_048_576;

/// The lines for a stream.
pub fn answered(stream: &[u8], tally: &mut Tally) -> Vec<String> {
    let mut rest = match stream.strip_prefix(MAGIC) {
        Some(rest) if stream.len() <= LONGEST => rest,
        _ => return vec!["bad script".into()],
    };
    let mut lines = Vec::new();
    while !rest.is_empty() {
        let Some(record) = Record::read(&mut rest) else {
            lines.push("bad record".into());
            break;
        };
        let refusal = record.refusal();
        tally.count(&record, refusal);
        lines.push(format!("record {} {refusal}", lines.len()));
    }
    lines
}

#[cfg(test)]
mod tests {
    use super::*;
    use crate::records::edges::base;

    fn lines(stream: &[u8]) -> Vec<String> {
        answered(stream, &mut Tally::new())
    }

    #[test]
    fn a_wrong_begin_or_too_many_bytes_are_a_bad_script() {
        for stream in [b"".as_slice(), b"REC", b"REC1", b"rec2", &b"REC2".repeat(LONGEST / 4 + 1)] {
            assert_eq!(lines(stream), ["bad script"]);
        }
        assert!(lines(b"REC2").is_empty());
    }

    #[test]
    fn a_bad_record_ends_the_lines() {
        let mut stream = MAGIC.to_vec();
        let other = Record { panel_lent: 13, ..base() };
        [base(), other].iter().for_each(|record| record.write(&mut stream));
        assert_eq!(lines(&stream), ["record 0 0", "record 1 8"]);
        stream.pop();
        assert_eq!(lines(&stream), ["record 0 0", "bad record"]);
    }
}
