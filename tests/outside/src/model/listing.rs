//! The listing: a line of text is a call on the bandwidth controller, and its answer is a line too.

use super::bandwidth::{Call, Request, Setup, State};
use super::{Answer, Checked, Grant, Performs};

/// The most bytes that a line has, its newline not counted.
pub const LONGEST: usize = 80;

/// Why a line is `bad`.
pub const LONG: &str = "over 80 bytes";
pub const FORM: &str = "another form";
pub const NUMBER: &str = "a number beyond 64 bits";
pub const BYTES: &str = "bytes beyond 32 bits";
pub const KIND: &str = "another kind than 0 and 1";
pub const BEFORE: &str = "before an accepted s";

/// What a line is answered with.
#[derive(Clone, Copy, Debug, PartialEq, Eq)]
pub enum Reply {
    Done,
    Value(u64),
    Granted(Grant),
    Refused(u64),
    Bad(&'static str),
}

impl Reply {
    fn of(call: &Call, answer: Answer) -> Reply {
        match (call, answer.refusal) {
            (Call::Read { .. }, 0) => Reply::Value(answer.value),
            (Call::Request(_), 0) => Reply::Granted(answer.grant),
            (_, 0) => Reply::Done,
            (_, number) => Reply::Refused(number),
        }
    }

    /// The line that is printed, without its newline.
    pub fn text(&self) -> String {
        match self {
            Reply::Done => "ok".into(),
            Reply::Value(value) => format!("{value:016x}"),
            Reply::Granted(Grant { reserved, pool }) => format!("{reserved} {pool}"),
            Reply::Refused(number) => format!("no {number}"),
            Reply::Bad(_) => "bad".into(),
        }
    }
}

/// The controller that the lines work on, once an s was accepted.
#[derive(Default)]
pub struct Listing {
    state: Option<State>,
}

impl Listing {
    pub fn state(&self) -> Option<&State> {
        self.state.as_ref()
    }

    pub fn answer(&mut self, line: &[u8]) -> Reply {
        let call = match call_of(line) {
            Ok(call) => call,
            Err(why) => return Reply::Bad(why),
        };
        if let Call::Reset(setup) = call {
            return self.reset(&setup, &call);
        }
        match &mut self.state {
            Some(state) => {
                let lengths = lengths(&state.record.setup);
                Reply::of(&call, state.perform(&lengths, &call))
            }
            None => Reply::Bad(BEFORE),
        }
    }

    /// A refused s leaves the earlier controller as it is.
    fn reset(&mut self, setup: &Setup, call: &Call) -> Reply {
        let mut fresh = State::default();
        let answer = fresh.perform(&lengths(setup), call);
        if answer.refusal == 0 {
            self.state = Some(fresh);
        }
        Reply::of(call, answer)
    }
}

/// Tables are lent as the set-up asks; one out of range is refused before any length is looked at.
pub fn lengths(setup: &Setup) -> Vec<usize> {
    if State::in_range(setup) {
        State::lengths(setup)
    } else {
        vec![State::RECORD_LENGTH]
    }
}

/// A newline or the end of the text ends a line; nothing after the last newline is no line.
pub fn lines(text: &[u8]) -> Vec<&[u8]> {
    let mut lines: Vec<&[u8]> = text.split(|&byte| byte == b'\n').collect();
    if lines.last().map_or(false, |line| line.is_empty()) {
        lines.pop();
    }
    lines
}

/// The call that a line asks for, or why it is `bad`.
pub fn call_of(line: &[u8]) -> Result<Call, &'static str> {
    if line.len() > LONGEST {
        return Err(LONG);
    }
    form_of(line)
}

/// The call of a line of any length.
pub fn form_of(line: &[u8]) -> Result<Call, &'static str> {
    let fields: Vec<&[u8]> = line.split(|&byte| byte == b' ').collect();
    match fields[..] {
        [b"s", nbwblks, mrbwb, nr, na, nm, q, w] => Ok(Call::Reset(Setup {
            nbwblks: decimal(nbwblks)?,
            mrbwb: decimal(mrbwb)?,
            nr: decimal(nr)?,
            na: decimal(na)?,
            nm: decimal(nm)?,
            q: decimal(q)?,
            w: decimal(w)?,
        })),
        [b"w", size, offset, value] => Ok(Call::Write {
            size: decimal(size)?,
            offset: hexadecimal(offset)?,
            value: hexadecimal(value)?,
        }),
        [b"r", size, offset] => {
            Ok(Call::Read { size: decimal(size)?, offset: hexadecimal(offset)? })
        }
        [b"q", rcid, mcid, at, kind, bytes] => Ok(Call::Request(Request {
            rcid: decimal(rcid)?,
            mcid: decimal(mcid)?,
            at: decimal(at)?,
            kind: decimal(kind).and_then(|kind| if kind < 2 { Ok(kind) } else { Err(KIND) })?,
            bytes: decimal(bytes)?.try_into().map_err(|_| BYTES)?,
        })),
        [b"e"] => Ok(Call::EndWindow),
        _ => Err(FORM),
    }
}

fn decimal(field: &[u8]) -> Result<u64, &'static str> {
    number(field, 10)
}

fn hexadecimal(field: &[u8]) -> Result<u64, &'static str> {
    number(field, 16)
}

/// One or more digits and nothing else; zeros may lead.
fn number(field: &[u8], radix: u32) -> Result<u64, &'static str> {
    let digits: Option<Vec<u32>> =
        field.iter().map(|&byte| char::from(byte).to_digit(radix)).collect();
    let digits = digits.filter(|digits| !digits.is_empty()).ok_or(FORM)?;
    let longer = |number: u64, digit: u32| {
        number.checked_mul(radix as u64).and_then(|number| number.checked_add(digit as u64))
    };
    digits.into_iter().try_fold(0, longer).ok_or(NUMBER)
}

#[cfg(test)]
mod tests {
    use super::*;

    fn listing(text: &[u8]) -> String {
        let mut listing = Listing::default();
        lines(text).iter().map(|line| listing.answer(line).text() + "\n").collect()
    }

    #[test]
    fn stored_inputs() {
        let folder = concat!(env!("CARGO_MANIFEST_DIR"), "/../listing");
        let mut count = 0;
        for entry in std::fs::read_dir(folder).unwrap() {
            let path = entry.unwrap().path();
            if path.extension().map_or(false, |extension| extension == "in") {
                let wanted = std::fs::read_to_string(path.with_extension("out")).unwrap();
                assert_eq!(listing(&std::fs::read(&path).unwrap()), wanted, "{path:?}");
                count += 1;
            }
        }
        assert!(count > 0, "no inputs in {folder}");
    }

    #[test]
    fn where_lines_end() {
        assert_eq!(lines(b"").len(), 0);
        assert_eq!(lines(b"\n"), [b""]);
        assert_eq!(lines(b"e\n\ne"), [&b"e"[..], b"", b"e"]);
        assert_eq!(lines(b"e\ne\n"), [b"e", b"e"]);
    }

    #[test]
    fn the_ends_of_numbers() {
        assert_eq!(decimal(b"018446744073709551615"), Ok(u64::MAX));
        assert_eq!(decimal(b"18446744073709551616"), Err(NUMBER));
        assert_eq!(hexadecimal(b"0FFFFffffFFFFffff"), Ok(u64::MAX));
        assert_eq!(hexadecimal(b"10000000000000000"), Err(NUMBER));
        for field in ["", "a", "+1", "-1", "0x1", "1\r", "\u{b2}"] {
            assert_eq!(decimal(field.as_bytes()), Err(FORM), "{field}");
        }
    }

    #[test]
    fn the_longest_line() {
        let longest = format!("r {:0>76} 0", 8);
        assert_eq!(longest.len(), LONGEST);
        assert!(call_of(longest.as_bytes()).is_ok());
        assert_eq!(call_of(format!("r {:0>77} 0", 8).as_bytes()), Err(LONG));
    }
}
