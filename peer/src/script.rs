//! The bench's text: lines in, events, lines out (01 'On the bench table', last part; 02, A1 and A5).

use crate::device::{Device, Refusal};
use crate::line::{crc32, Fit, Frame};
use crate::pins::{Millivolts, Pins};
use crate::text::{hex, octet_value, put_frame, put_octets};
use std::io::{self, Read, Write};

/// The longest line in form, without its LF.
const LONGEST_LINE: usize = 255;
/// Enough of the input to hold the longest line and its LF.
const WINDOW: usize = LONGEST_LINE + 1;
/// The most octets a line has room for: `p`, a kind of one digit, and three characters each.
const MOST_OCTETS: usize = (LONGEST_LINE - "p 0".len()) / " 00".len();
const MOST_DIGITS: usize = 7;

const BUFFER: usize = 1 << 16;
/// The longest answer, LF included; the output leaves before less room is left.
const LONGEST_ANSWER: usize = "no11 1\n".len() + Frame::LONGEST * " 00".len();

enum Event<'a> {
    Write { address: u8, value: u8 },
    Read { address: u8 },
    Time { microseconds: u32 },
    HardReset,
    Packet { kind: u32, packet: &'a [u8] },
    Voltages { pins: Pins },
}

enum Reply {
    Done,
    Value(u8),
    No(Refusal),
}

impl From<Result<(), Refusal>> for Reply {
    fn from(result: Result<(), Refusal>) -> Self {
        result.map_or_else(Reply::No, |()| Reply::Done)
    }
}

impl From<Result<u8, Refusal>> for Reply {
    fn from(result: Result<u8, Refusal>) -> Self {
        result.map_or_else(Reply::No, Reply::Value)
    }
}

/// Why a run ends early.
enum Stop {
    BadLine,
    Output(io::Error),
}

impl From<io::Error> for Stop {
    fn from(error: io::Error) -> Self {
        Stop::Output(error)
    }
}

/// Plays the script of `input` and answers each event; an error is one of `output`.
pub fn run(input: impl Read, output: impl Write) -> io::Result<()> {
    print(input, Answers::new(output, Printed::Answers))
}

/// Plays the script of `input` and lists the frames that left; an error is one of `output`.
pub fn sent(input: impl Read, output: impl Write) -> io::Result<()> {
    print(input, Answers::new(output, Printed::Sent))
}

/// Plays the script of `input` and says of each packet why no GoodCRC answers it; an error is one of `output`.
pub fn why(input: impl Read, output: impl Write) -> io::Result<()> {
    print(input, Answers::new(output, Printed::Why))
}

fn print(input: impl Read, mut answers: Answers<impl Write>) -> io::Result<()> {
    let mut lines = Lines::new(input);
    match play(&mut lines, &mut answers) {
        Ok(()) => {}
        Err(Stop::BadLine) => answers.bad_line(lines.number)?,
        Err(Stop::Output(error)) => return Err(error),
    }
    answers.flush()
}

fn play(lines: &mut Lines<impl Read>, answers: &mut Answers<impl Write>) -> Result<(), Stop> {
    let mut bench = Bench {
        device: Device::power_up(),
        line: Frame::silent(),
    };
    for _ in 0..lines.next(|text| text.decimal())? {
        let write = lines.next(|text| text.write())?;
        bench.answer(write, answers)?;
    }
    let mut octets = [0; MOST_OCTETS];
    for _ in 0..lines.next(|text| text.decimal())? {
        let event = lines.next(|text| text.event(&mut octets))?;
        answers.ahead_of(lines.number, &event, &bench.device)?;
        bench.answer(event, answers)?;
    }
    Ok(())
}

struct Bench {
    device: Device,
    line: Frame,
}

impl Bench {
    fn answer(&mut self, event: Event, answers: &mut Answers<impl Write>) -> io::Result<()> {
        self.line.clear();
        let reply = match event {
            Event::Write { address, value } => {
                self.device.write(address, value, &mut self.line).into()
            }
            Event::Read { address } => self.device.read(address).into(),
            Event::Time { microseconds } => self.device.pass(microseconds, &mut self.line).into(),
            Event::HardReset => {
                self.device.hear_hard_reset();
                Reply::Done
            }
            Event::Packet { kind, packet } => {
                self.device.hear_packet(kind, packet, &mut self.line).into()
            }
            Event::Voltages { pins } => {
                self.device.sense(pins);
                Reply::Done
            }
        };
        answers.outcome(reply, self.device.int_n(), &self.line)
    }
}

/// The input, line by line and numbered from 1.
struct Lines<R> {
    input: R,
    buffer: Box<[u8; BUFFER]>,
    start: usize,
    end: usize,
    ended: bool,
    number: u32,
}

impl<R: Read> Lines<R> {
    fn new(input: R) -> Self {
        Lines {
            input,
            buffer: Box::new([0; BUFFER]),
            start: 0,
            end: 0,
            ended: false,
            number: 0,
        }
    }

    /// Reads one line by its form; what is missing, out of form or too long is a bad line.
    fn next<T>(&mut self, form: impl FnOnce(&mut Text) -> Option<T>) -> Result<T, Stop> {
        self.number += 1;
        self.refill();
        let window = &self.buffer[self.start..self.end.min(self.start + WINDOW)];
        let mut text = Text { rest: window };
        let meaning = form(&mut text).ok_or(Stop::BadLine)?;
        self.start += match text.rest {
            [b'\n', ..] => window.len() - text.rest.len() + 1,
            // No form goes past a LF, so there is none: the line ends with the input or is too long.
            [] if window.len() <= LONGEST_LINE => window.len(),
            _ => return Err(Stop::BadLine),
        };
        Ok(meaning)
    }

    /// Reads on until a whole line, a whole window or the end of the input is there, and no further.
    fn refill(&mut self) {
        while self.end - self.start < WINDOW
            && !self.ended
            && !self.buffer[self.start..self.end].contains(&b'\n')
        {
            self.buffer.copy_within(self.start..self.end, 0);
            self.end -= self.start;
            self.start = 0;
            match self.input.read(&mut self.buffer[self.end..]) {
                Ok(0) => self.ended = true,
                Ok(count) => self.end += count,
                Err(error) if error.kind() == io::ErrorKind::Interrupted => {}
                // Input that cannot be read has ended: its next line is missing.
                Err(_) => self.ended = true,
            }
        }
    }
}

/// The rest of a line; each method takes what it reads, or finds the line out of form.
struct Text<'a> {
    rest: &'a [u8],
}

impl Text<'_> {
    fn character(&mut self) -> Option<u8> {
        let (&character, rest) = self.rest.split_first()?;
        self.rest = rest;
        Some(character)
    }

    fn space(&mut self) -> Option<()> {
        self.rest = self.rest.strip_prefix(b" ")?;
        Some(())
    }

    fn octet(&mut self) -> Option<u8> {
        let (&[high, low], rest) = self.rest.split_first_chunk()?;
        self.rest = rest;
        octet_value(high, low)
    }

    fn decimal(&mut self) -> Option<u32> {
        let mut value = 0;
        let mut digits = 0;
        while let [digit @ b'0'..=b'9', rest @ ..] = self.rest {
            if digits == MOST_DIGITS {
                return None;
            }
            value = 10 * value + u32::from(digit - b'0');
            digits += 1;
            self.rest = rest;
        }
        (digits > 0).then_some(value)
    }

    /// A space and a voltage; what is too large for one is out of form.
    fn voltage(&mut self) -> Option<Millivolts> {
        self.space()?;
        u16::try_from(self.decimal()?).ok().map(Millivolts)
    }

    fn write(&mut self) -> Option<Event<'static>> {
        let address = self.octet()?;
        self.space()?;
        let value = self.octet()?;
        Some(Event::Write { address, value })
    }

    fn event<'a>(&mut self, octets: &'a mut [u8; MOST_OCTETS]) -> Option<Event<'a>> {
        match self.character()? {
            b'w' => {
                self.space()?;
                self.write()
            }
            b'r' => {
                self.space()?;
                let address = self.octet()?;
                Some(Event::Read { address })
            }
            b't' => {
                self.space()?;
                let microseconds = self.decimal()?;
                Some(Event::Time { microseconds })
            }
            b'h' => Some(Event::HardReset),
            b'p' => {
                self.space()?;
                let kind = self.decimal()?;
                let mut count = 0;
                while self.space().is_some() {
                    *octets.get_mut(count)? = self.octet()?;
                    count += 1;
                }
                let packet = &octets[..count];
                Some(Event::Packet { kind, packet })
            }
            b'v' => {
                let pins = Pins {
                    cc1: self.voltage()?,
                    cc2: self.voltage()?,
                    vbus: self.voltage()?,
                };
                Some(Event::Voltages { pins })
            }
            _ => None,
        }
    }
}

/// Which lines a run prints: an answer to each event, the frames that left, or why a packet gets no GoodCRC.
enum Printed {
    Answers,
    Sent,
    Why,
}

/// The output, written out in large pieces.
struct Answers<W> {
    output: W,
    text: Vec<u8>,
    printed: Printed,
    /// How many symbols left.
    place: u64,
}

impl<W: Write> Answers<W> {
    fn new(output: W, printed: Printed) -> Self {
        Answers {
            output,
            text: Vec::with_capacity(BUFFER),
            printed,
            place: 0,
        }
    }

    /// Asks the device while it stands as the packet finds it, and names the packet by the number of its line (02, A5).
    fn ahead_of(&mut self, number: u32, event: &Event, device: &Device) -> io::Result<()> {
        match (&self.printed, event) {
            (Printed::Why, Event::Packet { kind, packet }) => {
                let why = device.why(*kind, packet).text();
                writeln!(self.text, "{number} {why}")
            }
            _ => Ok(()),
        }
    }

    fn outcome(&mut self, reply: Reply, int_n: bool, line: &Frame) -> io::Result<()> {
        match self.printed {
            Printed::Answers => self.answer(reply, int_n, line.symbols()),
            Printed::Sent => self.sent(line),
            Printed::Why => {}
        }
        if self.text.len() > BUFFER - LONGEST_ANSWER {
            self.flush()?;
        }
        Ok(())
    }

    fn answer(&mut self, reply: Reply, int_n: bool, symbols: &[u8]) {
        let text = &mut self.text;
        match reply {
            Reply::Done => text.extend_from_slice(b"ok"),
            Reply::Value(value) => {
                let [high, low] = hex(value);
                text.extend_from_slice(&[b'=', high, low]);
            }
            Reply::No(refusal) => {
                let number = refusal as u8;
                text.extend_from_slice(b"no");
                if number >= 10 {
                    text.push(b'0' + number / 10);
                }
                text.push(b'0' + number % 10);
            }
        }
        text.extend_from_slice(if int_n { b" 1" } else { b" 0" });
        put_octets(text, symbols);
        text.push(b'\n');
    }

    /// Lists the frame as the device named it, and not as its symbols read.
    fn sent(&mut self, line: &Frame) {
        match line.origin() {
            None => {}
            Some((number, [])) => put_frame(&mut self.text, self.place, number, Fit::Exact, &[]),
            Some((number, message)) => {
                let octets = [message, &crc32(message).to_le_bytes()].concat();
                put_frame(&mut self.text, self.place, number, Fit::Exact, &octets);
            }
        }
        self.place += line.symbols().len() as u64;
    }

    fn bad_line(&mut self, number: u32) -> io::Result<()> {
        match self.printed {
            Printed::Answers | Printed::Why => writeln!(self.text, "bad line {number}"),
            Printed::Sent => Ok(()),
        }
    }

    fn flush(&mut self) -> io::Result<()> {
        self.output.write_all(&self.text)?;
        self.text.clear();
        self.output.flush()
    }
}

#[cfg(test)]
mod tests {
    use super::*;
    use crate::line::crc32;

    fn answers_to(input: impl AsRef<[u8]>) -> String {
        let mut output = Vec::new();
        run(input.as_ref(), &mut output).unwrap();
        String::from_utf8(output).unwrap()
    }

    /// The answers to events alone, as lines.
    fn played(events: &[&str]) -> Vec<String> {
        let input = format!("0\n{}\n{}\n", events.len(), events.join("\n"));
        answers_to(input).lines().map(String::from).collect()
    }

    /// A `p` line whose message has its CRC made right.
    fn packet(kind: u32, message: &[u8]) -> String {
        let octets = [message, &crc32(message).to_le_bytes()].concat();
        let octets: String = octets.iter().map(|octet| format!(" {octet:02X}")).collect();
        format!("p {kind}{octets}")
    }

    const QUEUED: [&str; 14] = [
        "w 43 12", "w 43 12", "w 43 12", "w 43 13", "w 43 86", "w 43 4F", "w 43 10", "w 43 6C",
        "w 43 C3", "w 43 A1", "w 43 21", "w 43 FF", "w 43 14", "w 43 FE",
    ];

    #[test]
    fn example_of_the_paper() {
        let input = "2\n06 04\n03 21\n3\nw 09 46\nr 3E\nr 43\n";
        let output = "ok 1 -\nok 1 -\nok 0 07 07 07 19\n=08 1 -\nno8 1 -\n";
        assert_eq!(answers_to(input), output);
        assert_eq!(answers_to(input.trim_end()), output);
    }

    #[test]
    fn start_of_an_empty_queue() {
        assert_eq!(
            played(&["w 06 01", "w 06 41", "w 43 12", "w 06 41", "r 41"]),
            ["no4 1 -", "no4 1 -", "ok 1 -", "no4 1 -", "=20 1 -"]
        );
    }

    #[test]
    fn message_with_a1_as_data() {
        let events = [&["w 03 21"][..], &QUEUED, &["w 43 A1"]].concat();
        let answers = played(&events);
        assert!(answers[..15].iter().all(|answer| answer == "ok 1 -"));
        // CRC-32 of 4F 10 6C C3 A1 21 is 364073CC.
        assert_eq!(
            answers[15],
            "ok 1 18 18 18 11 1D 0A 1E 09 1A 0E 15 1A 09 16 09 14 1A 1A 15 0F 1E 0A 0E 15 0D"
        );
    }

    #[test]
    fn counted_blocks() {
        assert_eq!(
            played(&["w 43 81", "w 43 9F", "r 41", "w 43 82", "r 41"]),
            ["no3 1 -", "no3 1 -", "=28 1 -", "ok 1 -", "=20 1 -"]
        );
        assert_eq!(played(&["w 43 9E", "r 41"]), ["ok 1 -", "=20 1 -"]);
    }

    #[test]
    fn full_queue() {
        let events = [&["w 43 12"; 49][..], &["r 41"]].concat();
        let answers = played(&events);
        assert!(answers[..48].iter().all(|answer| answer == "ok 1 -"));
        assert_eq!(answers[48..], ["no5 1 -", "=24 1 -"]);
    }

    #[test]
    fn times() {
        assert_eq!(
            played(&["t 0", "t 1000", "t 1001", "t 9999999", "t 0001000"]),
            ["ok 1 -", "ok 1 -", "no10 1 -", "no10 1 -", "ok 1 -"]
        );
    }

    #[test]
    fn automatic_good_crc() {
        let sop = packet(0, &[0x42, 0x0A]);
        let sop1 = packet(1, &[0x42, 0x0A]);
        let answers = played(&["w 03 B5", "w 07 01", &sop, &sop1]);
        // Headers 61 0B and 41 0A after their ordered sets.
        assert!(answers[2].starts_with("ok 1 18 18 18 11 09 0E 17 1E "));
        assert!(answers[3].starts_with("ok 1 18 18 06 06 09 0A 16 1E "));
        assert_eq!(answers[2].len(), "ok 1".len() + 17 * 3);
    }

    #[test]
    fn receive_fifo_fills_and_drops() {
        let longest = packet(0, &[0; 30]);
        for (reads, status) in [(25, "=18 1 -"), (24, "=08 1 -")] {
            let mut events = vec![longest.as_str(); 2];
            events.extend(vec!["r 43"; reads]);
            events.extend([longest.as_str(), "r 41"]);
            assert_eq!(played(&events).last().unwrap(), status);
        }
    }

    #[test]
    fn hard_reset_with_the_driver_off() {
        assert_eq!(
            played(&["w 03 20", "w 09 46", "r 09"]),
            ["ok 1 -", "no7 1 -", "=06 1 -"]
        );
    }

    #[test]
    fn three_retries() {
        let start = ["w 43 A1", "t 1000", "t 1000", "t 1000", "t 1000", "r 3C"];
        let events = [&["w 03 21", "w 09 07"][..], &QUEUED, &start].concat();
        let answers = played(&events);
        assert_eq!(answers[16].len(), "ok 1".len() + 25 * 3);
        assert!(answers[17..20].iter().all(|retry| *retry == answers[16]));
        assert_eq!(answers[20..], ["ok 1 -", "=10 1 -"]);
    }

    #[test]
    fn heard_kinds_and_lengths() {
        let longest_line = format!("p 0{}", " 00".repeat(84));
        assert_eq!(longest_line.len(), LONGEST_LINE);
        assert_eq!(
            played(&[
                "p 5",
                "p 9999999 00",
                "p 0",
                "p 0000004 00",
                &longest_line,
                "h"
            ]),
            ["no11 1 -", "no11 1 -", "no9 1 -", "no9 1 -", "no9 1 -", "ok 1 -"]
        );
    }

    #[test]
    fn voltages() {
        assert_eq!(
            played(&[
                "w 06 04",
                "w 0B 04",
                "w 02 04",
                "v 1230 0 4000",
                "r 40",
                "r 42",
                "v 0000660 0000000 0003999",
                "r 40",
                "r 42",
                "v 65535 65535 65535",
                "v 0065535 0065535 0065535",
                "r 40",
            ]),
            [
                "ok 1 -", "ok 1 -", "ok 1 -", "ok 0 -", "=83 0 -", "=81 1 -", "ok 0 -", "=02 0 -",
                "=81 1 -", "ok 0 -", "ok 0 -", "=A3 0 -"
            ]
        );
        // Each voltage is its own pin's.
        for (event, switches0, status) in [
            ("v 200 660 0", "w 02 04", "=01 1 -"),
            ("v 200 660 0", "w 02 08", "=02 1 -"),
            ("v 0 0 4000", "w 02 04", "=80 1 -"),
        ] {
            let answers = played(&["w 0B 04", switches0, event, "r 40"]);
            assert_eq!(answers[3], status, "{event}");
        }
    }

    #[test]
    fn voltages_above_65535_are_out_of_form() {
        for (line, taken) in [
            ("v 65535 0 0", true),
            ("v 0 65535 0", true),
            ("v 0 0 65535", true),
            ("v 65536 0 0", false),
            ("v 0 65536 0", false),
            ("v 0 0 65536", false),
            ("v 0065536 0 0", false),
            ("v 99999 0 0", false),
            ("v 0 131072 0", false),
            ("v 0 0 9999999", false),
        ] {
            let answer = if taken { "ok 1 -\n" } else { "bad line 3\n" };
            assert_eq!(answers_to(format!("0\n1\n{line}\n")), answer, "{line}");
            assert_eq!(answers_to(format!("0\n1\n{line}")), answer, "{line}");
        }
    }

    #[test]
    fn setup_writes_are_answered_like_events() {
        assert_eq!(
            answers_to("4\n03 21\n09 46\n3C 00\n00 00\n0\n"),
            "ok 1 -\nok 1 07 07 07 19\nno2 1 -\nno1 1 -\n"
        );
    }

    #[test]
    fn nothing_after_the_last_event_is_read() {
        assert_eq!(answers_to("0\n0\n"), "");
        assert_eq!(answers_to("0\n0"), "");
        assert_eq!(answers_to("0\n1\nh\n\r\nnonsense"), "ok 1 -\n");
        assert_eq!(answers_to("0\n1\nh"), "ok 1 -\n");
    }

    #[test]
    fn missing_lines() {
        assert_eq!(answers_to(""), "bad line 1\n");
        assert_eq!(answers_to("0"), "bad line 2\n");
        assert_eq!(answers_to("0\n"), "bad line 2\n");
        assert_eq!(answers_to("0\n1"), "bad line 3\n");
        assert_eq!(answers_to("0\n2\nh\n"), "ok 1 -\nbad line 4\n");
        assert_eq!(answers_to("2\n06 04\n"), "ok 1 -\nbad line 3\n");
        assert_eq!(answers_to("9999999\n06 04"), "ok 1 -\nbad line 3\n");
    }

    #[test]
    fn counts_out_of_form() {
        for line in [
            "",
            "\n",
            "\r\n",
            "0\r\n",
            " 0\n",
            "0 \n",
            "+0\n",
            "-1\n",
            "00000000\n",
            "12345678",
            "0x1\n",
            "A\n",
            "\0\n",
            "0\0\n",
            "\u{660}\n",
        ] {
            assert_eq!(answers_to(line), "bad line 1\n", "{line:?}");
            let second = format!("1\n06 04\n{line}");
            assert_eq!(answers_to(second), "ok 1 -\nbad line 3\n", "{line:?}");
        }
        assert_eq!(answers_to("0000000\n0000001\nh\n"), "ok 1 -\n");
    }

    #[test]
    fn setup_writes_out_of_form() {
        for line in [
            "", "06", "06 ", "06 4", "06  04", " 06 04", "06 04 ", "06 04\r", "0a 04", "06 0a",
            "06\t04", "06 004", "006 04", "w 06 04", "06 04 00", "0G 04", "06 0\0", "06-04",
        ] {
            let input = format!("1\n{line}\n0\n");
            assert_eq!(answers_to(&input), "bad line 2\n", "{line:?}");
        }
    }

    #[test]
    fn events_out_of_form() {
        for line in [
            "",
            " ",
            "x",
            "W 06 04",
            "w",
            "w 06",
            "w 06 ",
            "w 06 04 ",
            "w  06 04",
            "w 06  04",
            "w06 04",
            "w 0a 04",
            "w 06 04\r",
            "r",
            "r 3",
            "r 3e",
            "r 3E ",
            "r  3E",
            "r 3E 00",
            "t",
            "t ",
            "t  1",
            "t 1 ",
            "t1",
            "t 12345678",
            "t 00000001",
            "t -1",
            "t A",
            "h ",
            "hh",
            "h\r",
            "p",
            "p ",
            "p  0",
            "p 0 ",
            "p 0 0",
            "p 0 000",
            "p 0  00",
            "p 0 00 ",
            "p 0 0a",
            "p 00000000",
            "p A",
            "p 0 00\r",
            "p 0\0",
            "v",
            "v ",
            "v 1",
            "v 1 ",
            "v 1 2",
            "v 1 2 ",
            "v 1 2 3 ",
            "v 1 2 3 4",
            "v 1 2 3\r",
            "v 1 2 3\0",
            "v  1 2 3",
            "v 1  2 3",
            "v 1 2  3",
            "v1 2 3",
            "v\t1 2 3",
            "v 1,2,3",
            "V 1 2 3",
            " v 1 2 3",
            "v -1 2 3",
            "v 1 +2 3",
            "v 1 2 A",
            "v 1 2 3A",
            "v 1.0 2 3",
            "v 00000001 2 3",
            "v 1 00000002 3",
            "v 1 2 00000003",
            "v 12345678 2 3",
            "\0",
        ] {
            let input = format!("0\n2\nh\n{line}\n");
            assert_eq!(answers_to(&input), "ok 1 -\nbad line 4\n", "{line:?}");
            if !line.is_empty() {
                let unended = format!("0\n2\nh\n{line}");
                assert_eq!(answers_to(&unended), "ok 1 -\nbad line 4\n", "{line:?}");
            }
        }
    }

    #[test]
    fn lines_over_255_characters() {
        for (kind, octets) in [("0", 84), ("00", 84), ("000", 84), ("0", 85)] {
            let line = format!("p {kind}{}", " 00".repeat(octets));
            let answer = if line.len() <= 255 {
                "no9 1 -\n"
            } else {
                "bad line 3\n"
            };
            assert_eq!(answers_to(format!("0\n1\n{line}")), answer);
            assert_eq!(answers_to(format!("0\n1\n{line}\n")), answer);
        }
        assert_eq!(answers_to("0".repeat(1 << 20)), "bad line 1\n");
    }

    #[test]
    fn octets_beyond_ascii_are_out_of_form() {
        for octet in 0..=255 {
            let input = [b"0\n1\n", &[octet][..], b"\n"].concat();
            let answer = if octet == b'h' {
                "ok 1 -\n"
            } else {
                "bad line 3\n"
            };
            assert_eq!(answers_to(input), answer);
        }
    }

    /// Hands out its text in pieces of a given size.
    struct Trickle<'a>(&'a [u8], usize);

    impl Read for Trickle<'_> {
        fn read(&mut self, buffer: &mut [u8]) -> io::Result<usize> {
            let count = self.1.min(self.0.len()).min(buffer.len());
            buffer[..count].copy_from_slice(&self.0[..count]);
            self.0 = &self.0[count..];
            Ok(count)
        }
    }

    #[test]
    fn pieces_of_input_make_no_difference() {
        let mut input = String::from("1\n06 04\n9000\n");
        for number in 0..3_000 {
            input += &packet(number % 6, &[number as u8; 30]);
            input += "\nr 42\nw 07 67\n";
        }
        let whole = answers_to(&input);
        assert_eq!(whole.lines().count(), 9_001);
        for size in [1, 7, 255, 256, 257, 4_096, BUFFER - 1] {
            let mut output = Vec::new();
            run(Trickle(input.as_bytes(), size), &mut output).unwrap();
            assert_eq!(output, whole.as_bytes());
        }
    }

    /// Refuses to be read after its text, as a terminal left open would block.
    struct LeftOpen<'a>(&'a [u8]);

    impl Read for LeftOpen<'_> {
        fn read(&mut self, buffer: &mut [u8]) -> io::Result<usize> {
            assert!(!self.0.is_empty(), "read past the last event");
            self.0.read(buffer)
        }
    }

    #[test]
    fn last_event_needs_no_end_of_input() {
        let mut output = Vec::new();
        run(LeftOpen(b"0\n2\nh\nr 3E\n"), &mut output).unwrap();
        assert_eq!(output, b"ok 1 -\n=01 1 -\n");
    }

    /// Takes a given number of octets and then is full.
    struct Full(usize);

    impl Write for Full {
        fn write(&mut self, octets: &[u8]) -> io::Result<usize> {
            let count = self.0.min(octets.len());
            self.0 -= count;
            Ok(count)
        }

        fn flush(&mut self) -> io::Result<()> {
            Ok(())
        }
    }

    #[test]
    fn full_output_ends_the_run() {
        let input = format!("0\n9999999\n{}", "h\n".repeat(100_000));
        assert!(run(input.as_bytes(), Full(100_000)).is_err());
        assert!(run(&b"0\n1\nh\n"[..], Full(0)).is_err());
        assert!(run(&b""[..], Full(0)).is_err());
    }

    fn why_of(input: impl AsRef<[u8]>) -> String {
        let mut output = Vec::new();
        why(input.as_ref(), &mut output).unwrap();
        String::from_utf8(output).unwrap()
    }

    #[test]
    fn why_names_each_packet_by_its_line() {
        let request = packet(1, &[0x42, 0x0A]);
        let good_crc = packet(1, &[0x41, 0x0A]);
        let longest = packet(0, &[0; 30]);
        let events = [
            "p 5",
            "p 0",
            &request,
            "w 07 01",
            "p 1 42 0A 66 D6 43 62",
            &longest,
            &longest,
            &longest,
            "w 07 05",
            &good_crc,
            &request,
            "w 03 25",
            "w 06 26",
            &request,
            "w 06 24",
            "w 03 24",
            &request,
            "w 03 26",
            &request,
        ];
        let setup = "3\n06 04\n00 00\n03 21\n";
        let output = "6 refused 11\n7 refused 9\n8 kind off\n10 CRC wrong\n11 AUTO_CRC off\n12 AUTO_CRC off\n\
            13 no room\n15 it is a GoodCRC\n16 AUTO_CRC off\n19 AUTO_PRE on\n22 driver off\n24 leaves\n";
        let input = format!("{setup}{}\n{}", events.len(), events.join("\n"));
        assert_eq!(why_of(&input), output);
        assert_eq!(why_of(input + "\nnonsense\n"), output);
    }

    #[test]
    fn why_is_asked_before_the_packet_is_heard() {
        // Eleven fit with their tokens; the eleventh leaves no room for one more, and is itself answered.
        let request = packet(0, &[0x42, 0x0A]);
        let events = vec![request; 12].join("\n");
        let mut output: String = (4..15).map(|line| format!("{line} leaves\n")).collect();
        output += "15 no room\n";
        assert_eq!(why_of(format!("1\n03 25\n12\n{events}\n")), output);
    }

    #[test]
    fn why_prints_nothing_for_other_events() {
        // Symbols leave, reads answer and events are refused, and none of it is of a packet.
        let others = "w 09 46\nr 3E\nr 43\nt 1000\nt 1001\nh\nv 1 2 3\nw 43 12\nw 00 00\n";
        assert_eq!(why_of(format!("2\n03 25\n09 40\n9\n{others}")), "");
        assert_eq!(why_of("0\n0\n"), "");
        let input = format!("0\n11\np 5\n{others}p 0\n");
        assert_eq!(why_of(input), "3 refused 11\n13 refused 9\n");
    }

    #[test]
    fn why_has_the_same_bad_lines() {
        let too_long = format!("p 0{}", " 00".repeat(85));
        for line in [
            "",
            "x",
            "p",
            "p ",
            "p 0 ",
            "p 0 0",
            "p 0 0a",
            "p  0",
            "p 00000000",
            "P 0",
            "h ",
            "v 1 2",
            "v 1 2 65536",
            "t 12345678",
            "w 06",
            "3 leaves",
            &too_long,
        ] {
            for input in [
                format!("{line}\n"),
                format!("1\n{line}\n"),
                format!("1\n06 04\n{line}\n"),
                format!("1\n06 04\n3\n{line}\n"),
                format!("1\n06 04\n3\np 5\n{line}\np 0\n"),
                format!("1\n06 04\n3\np 5\nr 01\n{line}"),
            ] {
                let bad_line = answers_to(&input).lines().last().unwrap().to_string();
                assert!(bad_line.starts_with("bad line "), "{input:?}");
                let before = if input.contains("p 5") {
                    "4 refused 11\n"
                } else {
                    ""
                };
                assert_eq!(why_of(&input), format!("{before}{bad_line}\n"), "{input:?}");
            }
        }
        let longest_line = format!("p 0{}", " 00".repeat(84));
        assert_eq!(why_of(format!("0\n1\n{longest_line}")), "3 refused 9\n");
    }

    #[test]
    fn why_with_lines_missing() {
        assert_eq!(why_of(""), "bad line 1\n");
        assert_eq!(why_of("0\n"), "bad line 2\n");
        assert_eq!(why_of("1\n06 04"), "bad line 3\n");
        assert_eq!(why_of("0\n1\n"), "bad line 3\n");
        assert_eq!(why_of("0\n2\np 5\n"), "3 refused 11\nbad line 4\n");
        assert_eq!(why_of("0\n3\nh\np 0"), "4 refused 9\nbad line 5\n");
    }

    #[test]
    fn why_leaves_where_the_answer_has_symbols() {
        let mut events = Vec::new();
        for number in 0..6_000u32 {
            let message = [[0x41, 0x42, 0x4D][number as usize % 3], 0x0A, 0x00];
            events.push(packet(number % 7, &message[..number as usize % 5 % 4]));
            events.push(format!(
                "w 07 {:02X}",
                [0x63, 0x25, 0x42][number as usize % 11 % 3]
            ));
            events.push(format!("w 03 {:02X}", 0x24 + number % 13 % 4));
        }
        let input = format!("0\n{}\n{}\n", events.len(), events.join("\n"));
        let (answers, whys) = (answers_to(&input), why_of(&input));
        let mut whys = whys.lines();
        let mut left = 0;
        for (place, answer) in answers.lines().enumerate().step_by(3) {
            let (line, why) = whys.next().unwrap().split_once(' ').unwrap();
            assert_eq!(line, (place + 3).to_string());
            assert_eq!(why == "leaves", answer.contains(" 0D"), "{line}");
            assert_eq!(why == "refused 11", answer.starts_with("no11"), "{line}");
            assert_eq!(why == "refused 9", answer.starts_with("no9"), "{line}");
            left += u32::from(why == "leaves");
        }
        assert_eq!(whys.next(), None);
        assert!((100..5_900).contains(&left), "{left}");
    }

    /// Takes all that is written, in pieces that a buffer of bounded size holds.
    struct InPieces(Vec<u8>);

    impl Write for InPieces {
        fn write(&mut self, octets: &[u8]) -> io::Result<usize> {
            assert!(octets.len() <= BUFFER, "held back {}", octets.len());
            self.0.write(octets)
        }

        fn flush(&mut self) -> io::Result<()> {
            Ok(())
        }
    }

    #[test]
    fn why_goes_on_as_long_as_the_input() {
        let mut output = Vec::new();
        why(LeftOpen(b"0\n2\np 5\nh\n"), &mut output).unwrap();
        assert_eq!(output, b"3 refused 11\n");

        let input = format!("0\n9999999\n{}", "p 5\nh\n".repeat(50_000));
        let mut whole: String = (0..50_000)
            .map(|one| format!("{} refused 11\n", 3 + 2 * one))
            .collect();
        whole += "bad line 100003\n";
        for size in [1, 255, BUFFER] {
            let mut output = InPieces(Vec::new());
            why(Trickle(input.as_bytes(), size), &mut output).unwrap();
            assert_eq!(output.0, whole.as_bytes());
        }
        assert!(why(input.as_bytes(), Full(100_000)).is_err());
        assert!(why(&b"0\n1\np 5\n"[..], Full(0)).is_err());
    }
}
