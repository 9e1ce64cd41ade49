//! What is on the line: a record of symbols in, a line for each frame of it out.

use crate::line::{Reader, Unread};
use crate::text::{hex_value, put_frame};
use std::io::{self, BufReader, Bytes, Read, Write};

/// Lists the frames of the record `input`; an error is one of `output`.
pub fn run(input: impl Read, mut output: impl Write) -> io::Result<()> {
    let mut record = Record::new(input);
    let mut reader = Reader::new();
    let mut begun = 0;
    let mut line = Vec::new();
    loop {
        let place = record.length;
        let symbol = match record.next() {
            Ok(Some(symbol)) => symbol,
            Ok(None) if place == begun => return Ok(()),
            Ok(None) => return writeln!(output, "no{} {place}", Unread::CutShort as u8),
            Err(OutOfForm) => return writeln!(output, "bad octet {}", place + 1),
        };
        match reader.take(symbol) {
            Ok(None) => {}
            Ok(Some(frame)) => {
                line.clear();
                put_frame(&mut line, begun, frame.number, frame.fit, frame.octets);
                // Each line leaves at once, since the next frame may be long in coming.
                output.write_all(&line)?;
                output.flush()?;
                begun = place + 1;
            }
            Err((unread, within)) => {
                let place = begun + within as u64;
                return writeln!(output, "no{} {place}", unread as u8);
            }
        }
    }
}

struct OutOfForm;

/// The input, symbol by symbol.
struct Record<R> {
    characters: Bytes<BufReader<R>>,
    /// How many symbols were read.
    length: u64,
}

impl<R: Read> Record<R> {
    fn new(input: R) -> Self {
        Record {
            characters: BufReader::new(input).bytes(),
            length: 0,
        }
    }

    /// Reads a symbol and what stands before it; None at the record's end.
    fn next(&mut self) -> Result<Option<u8>, OutOfForm> {
        let may_end = if self.length == 0 {
            true
        } else {
            match self.character() {
                None => return Ok(None),
                Some(b'\n') => true,
                Some(b' ') => false,
                Some(_) => return Err(OutOfForm),
            }
        };
        let high = match self.character() {
            None if may_end => return Ok(None),
            high => high.and_then(hex_value).ok_or(OutOfForm)?,
        };
        let low = self.character().and_then(hex_value).ok_or(OutOfForm)?;
        self.length += 1;
        Ok(Some(high << 4 | low))
    }

    /// Input that cannot be read has ended.
    fn character(&mut self) -> Option<u8> {
        self.characters.next()?.ok()
    }
}

#[cfg(test)]
mod tests {
    use super::*;
    use crate::script::sent;

    const HARD_RESET: &str = "07 07 07 19";
    const GOOD_CRC: &str = "18 18 18 11 09 0A 1E 1E 17 17 1A 0E 17 17 12 16 0D";
    /// A message with an accented letter, C3 A1, on SOP'.
    const NAME: &str = "18 18 06 06 1D 0A 1E 09 1A 0E 15 1A 09 16 09 14 1A 1A 15 0F 1E 0A 0E 15 0D";
    const NAME_OCTETS: &str = "4F 10 6C C3 A1 21 CC 73 40 36";

    fn listed(input: impl AsRef<[u8]>) -> String {
        let mut output = Vec::new();
        run(input.as_ref(), &mut output).unwrap();
        String::from_utf8(output).unwrap()
    }

    #[test]
    fn frames_of_a_record() {
        assert_eq!(listed(""), "");
        assert_eq!(listed(HARD_RESET), "0 5 -\n");
        assert_eq!(listed(GOOD_CRC), "0 0 41 00 BB 6C BB A8\n");
        assert_eq!(listed(NAME), format!("0 1 {NAME_OCTETS}\n"));
        let all = format!("0 0 41 00 BB 6C BB A8\n17 5 -\n21 1 {NAME_OCTETS}\n46 5 -\n");
        for separator in [" ", "\n"] {
            for end in ["", "\n"] {
                let record = [GOOD_CRC, HARD_RESET, NAME, HARD_RESET].join(separator) + end;
                assert_eq!(listed(&record), all);
                assert_eq!(listed(record.replace(' ', "\n")), all);
            }
        }
    }

    #[test]
    fn frames_whose_set_was_not_exact_are_marked() {
        let near = GOOD_CRC.replacen("18", "FF", 1);
        let record = [NAME, &near, "07 07 07 18", HARD_RESET, &near, GOOD_CRC].join(" ");
        let octets = "41 00 BB 6C BB A8";
        let frames = format!(
            "0 1 {NAME_OCTETS}\n25 0~ {octets}\n42 5~ -\n46 5 -\n50 0~ {octets}\n67 0 {octets}\n"
        );
        assert_eq!(listed(record), frames);
        assert_eq!(listed(near.replace("12 16 0D", "12 17 0D")), "no15 16\n");
        assert_eq!(listed(near.replace("12 16 0D", "12 18 0D")), "no13 15\n");
        assert_eq!(listed(near.replace(" 12 16 0D", "")), "no14 14\n");
        assert_eq!(listed("07 07 06 19 18 18 06 11"), "0 5~ -\nno13 4\n");
    }

    #[test]
    fn ends_of_a_walk() {
        assert_eq!(listed("18 18 11"), "no14 3\n");
        assert_eq!(listed("18"), "no14 1\n");
        assert_eq!(listed("18\n"), "no14 1\n");
        for no_set in ["18 18 06 11", "0D 0D 0D 0D", "FF 07 07 FF"] {
            assert_eq!(listed(no_set), "no13 0\n");
            assert_eq!(listed(format!("{HARD_RESET} {no_set}")), "0 5 -\nno13 4\n");
        }
        assert_eq!(listed(format!("{HARD_RESET} FF")), "0 5 -\nno14 5\n");
        assert_eq!(listed(format!("{HARD_RESET}\n07\n")), "0 5 -\nno14 5\n");
        let wrong = GOOD_CRC.replace("12 16 0D", "12 17 0D");
        assert_eq!(listed(&wrong), "no15 16\n");
        let second = format!("{HARD_RESET} {wrong} {HARD_RESET}");
        assert_eq!(listed(second), "0 5 -\nno15 20\n");
        for length in 1..25 {
            let cut = &NAME[..3 * length - 1];
            assert_eq!(listed(cut), format!("no14 {length}\n"));
            let second = format!("{HARD_RESET} {cut}\n");
            assert_eq!(listed(second), format!("0 5 -\nno14 {}\n", 4 + length));
        }
    }

    #[test]
    fn records_out_of_form() {
        for (text, number) in [
            ("\n", 1),
            (" ", 1),
            ("1", 1),
            ("1\n", 1),
            ("x", 1),
            (" 18", 1),
            ("\n18", 1),
            ("\u{FEFF}18", 1),
            ("1d", 1),
            ("G8", 1),
            ("1 8", 1),
            ("18 ", 2),
            ("18\n\n", 2),
            ("18\n ", 2),
            ("18 \n", 2),
            ("18 1", 2),
            ("18 1\n", 2),
            ("18,18", 2),
            ("1818", 2),
            ("18  18", 2),
            ("18\t18", 2),
            ("18\r\n18", 2),
            ("18\r\n", 2),
            ("18\0", 2),
            ("18 18 x", 3),
            ("18 18 18 11 1d", 5),
        ] {
            assert_eq!(listed(text), format!("bad octet {number}\n"), "{text:?}");
            let second = format!("0 5 -\nbad octet {}\n", 4 + number);
            assert_eq!(listed(format!("{HARD_RESET} {text}")), second, "{text:?}");
            assert_eq!(listed(format!("{HARD_RESET}\n{text}")), second, "{text:?}");
        }
    }

    #[test]
    fn first_stop_wins() {
        for rest in ["", " ", "x", "\n\n", " 1", " 18 18 11", "1"] {
            assert_eq!(listed(format!("18 18 06 11{rest}")), "no13 0\n", "{rest:?}");
            let wrong = GOOD_CRC.replace("09 0A", "0A 0A");
            assert_eq!(listed(wrong + rest), "no15 16\n", "{rest:?}");
        }
        assert_eq!(listed("18 18 x 11"), "bad octet 3\n");
        assert_eq!(listed("FF FF FF x"), "bad octet 4\n");
    }

    /// Refuses to be read after its text, as a pipe left open would block.
    struct LeftOpen<'a>(&'a [u8]);

    impl Read for LeftOpen<'_> {
        fn read(&mut self, buffer: &mut [u8]) -> io::Result<usize> {
            assert!(!self.0.is_empty(), "read after the walk stopped");
            self.0.read(buffer)
        }
    }

    #[test]
    fn nothing_is_read_after_the_walk_stopped() {
        for text in ["18 18 06 11", "18,", "1d", "18 x", "18  ", "\n"] {
            run(LeftOpen(text.as_bytes()), &mut Vec::new()).unwrap();
        }
    }

    #[test]
    fn full_output_ends_the_run() {
        for text in [HARD_RESET, "18", "x"] {
            assert!(run(text.as_bytes(), &mut [0; 4][..]).is_err());
        }
    }

    fn listed_as_sent(script: &str) -> String {
        let mut output = Vec::new();
        sent(script.as_bytes(), &mut output).unwrap();
        String::from_utf8(output).unwrap()
    }

    #[test]
    fn sent_frames_are_listed_with_their_places() {
        let queue: String = [
            0x12, 0x12, 0x1B, 0x1B, 0x86, 0x4F, 0x10, 0x6C, 0xC3, 0xA1, 0x21, 0xFF, 0x14, 0xFE,
        ]
        .map(|octet: u8| format!("w 43 {octet:02X}\n"))
        .concat();
        // Two retries, a Soft_Reset on SOP' with two of its own, a Hard Reset; then one that was asked for.
        let events = format!("{queue}w 43 A1\n{}w 09 40\n", "t 1000\n".repeat(7));
        let frames = [
            format!("0 1 {NAME_OCTETS}"),
            format!("25 1 {NAME_OCTETS}"),
            format!("50 1 {NAME_OCTETS}"),
            "75 1 4D 00 B7 23 0E 04".to_string(),
            "92 1 4D 00 B7 23 0E 04".to_string(),
            "109 1 4D 00 B7 23 0E 04".to_string(),
            "126 5 -".to_string(),
            "130 5 -".to_string(),
        ];
        let script = format!("2\n03 21\n09 1D\n23\n{events}");
        assert_eq!(listed_as_sent(&script), frames.join("\n") + "\n");
        let script = format!("3\n03 21\n09 40\n09 1D\n15\n{events}");
        let frames = format!("0 5 -\n4 1 {NAME_OCTETS}\n");
        assert_eq!(listed_as_sent(&script), frames);
    }

    #[test]
    fn good_crc_that_was_sent_is_listed() {
        let script = "3\n03 24\n07 20\n03 25\n1\np 3 42 0A 66 D6 43 63\n";
        assert_eq!(listed_as_sent(script), "0 3 41 0A A5 85 6E 48\n");
    }

    #[test]
    fn nothing_is_listed_where_nothing_left_and_a_bad_line_ends_the_list() {
        assert_eq!(listed_as_sent("0\n0\n"), "");
        assert_eq!(listed_as_sent("0\n1\nw 09 40\n"), "");
        assert_eq!(listed_as_sent(""), "");
        let script = "1\n03 21\n9\nw 09 40\nx\nw 09 40\n";
        assert_eq!(listed_as_sent(script), "0 5 -\n");
    }
}
