//! A plain reader of the format that `edn_reader` reads, without proofs: the measure of its speed.
//!
//! Reads standard input some times. Prints how many elements it has, how many bytes they have
//! together, and the least nanoseconds of a pass; or the fault. `rustc --test` builds its tests.

use std::hint::black_box;
use std::io;
use std::io::Read;
use std::time::Instant;

const PASSES: u32 = 5;

/// How many brackets, tags and discards may be open at once.
const ROOM: usize = 64;

#[derive(Clone, Copy, Debug, PartialEq, Eq)]
enum Kind {
    Atom,
    Char,
    Text,
    List,
    Vector,
    Map,
    Set,
    Tagged,
}

#[derive(Clone, Copy, Debug, PartialEq, Eq)]
struct Element<'t> {
    kind: Kind,
    start: usize,
    text: &'t [u8],
}

#[derive(Clone, Copy, Debug, PartialEq, Eq)]
enum Fault {
    Truncated(usize),
    StrayClose(usize),
    WrongClose(usize),
    TooDeep(usize),
    OddMap(usize),
    TagWithoutElement(usize),
}

/// What is open, with the place at which it began.
#[derive(Clone, Copy)]
enum Open {
    List(usize),
    Vector(usize),
    Map { start: usize, odd: bool },
    Set(usize),
    Tag(usize),
    Discard(usize),
}

/// Whether a byte goes on with an Atom, a Char or the name of a tag.
const RUN: [bool; 256] = {
    let mut run = [true; 256];
    let ends = b"\t\n\x0b\x0c\r ,;\"()[]{}";
    let mut at = 0;
    while at < ends.len() {
        run[ends[at] as usize] = false;
        at += 1;
    }
    run
};

struct Reader<'t> {
    input: &'t [u8],
    at: usize,
    open: Vec<Open>,
    fault: Option<Fault>,
}

impl<'t> Reader<'t> {
    fn new(input: &'t [u8]) -> Reader<'t> {
        Reader {
            input,
            at: 0,
            open: Vec::with_capacity(ROOM),
            fault: None,
        }
    }

    /// The next outermost element; none at the end of the input.
    fn next(&mut self) -> Result<Option<Element<'t>>, Fault> {
        if let Some(fault) = self.fault {
            return Err(fault);
        }
        let found = self.read();
        self.fault = found.err();
        found
    }

    fn read(&mut self) -> Result<Option<Element<'t>>, Fault> {
        let input = self.input;
        let mut at = self.at;
        while at < input.len() {
            let start = at;
            at += 1;
            let kind = match input[start] {
                9..=13 | b' ' | b',' => continue,
                b';' => {
                    while at < input.len() && input[at] != b'\n' {
                        at += 1;
                    }
                    continue;
                }
                b'"' => {
                    at = text_end(input, at)?;
                    Kind::Text
                }
                b'\\' => {
                    if at == input.len() {
                        return Err(Fault::Truncated(at));
                    }
                    at = run_end(input, at + 1);
                    Kind::Char
                }
                b'(' => {
                    self.begin(Open::List(start), start)?;
                    continue;
                }
                b'[' => {
                    self.begin(Open::Vector(start), start)?;
                    continue;
                }
                b'{' => {
                    self.begin(Open::Map { start, odd: false }, start)?;
                    continue;
                }
                byte @ (b')' | b']' | b'}') => {
                    let (kind, began) = self.close(byte, start)?;
                    if let Some(element) = self.finish(kind, began, at) {
                        return Ok(Some(element));
                    }
                    continue;
                }
                b'#' => match input.get(at) {
                    None => return Err(Fault::Truncated(at)),
                    Some(b'#') => {
                        at = run_end(input, at + 1);
                        Kind::Atom
                    }
                    Some(b'"') => {
                        at = text_end(input, at + 1)?;
                        Kind::Text
                    }
                    Some(b'{') => {
                        self.begin(Open::Set(start), start)?;
                        at += 1;
                        continue;
                    }
                    Some(b'_') => {
                        self.begin(Open::Discard(start), start)?;
                        at += 1;
                        continue;
                    }
                    Some(_) => {
                        self.begin(Open::Tag(start), start)?;
                        at = run_end(input, at);
                        continue;
                    }
                },
                _ => {
                    at = run_end(input, at);
                    Kind::Atom
                }
            };
            if let Some(element) = self.finish(kind, start, at) {
                return Ok(Some(element));
            }
        }
        if self.open.is_empty() {
            self.at = at;
            Ok(None)
        } else {
            Err(Fault::Truncated(at))
        }
    }

    fn begin(&mut self, open: Open, place: usize) -> Result<(), Fault> {
        if self.open.len() == ROOM {
            return Err(Fault::TooDeep(place));
        }
        self.open.push(open);
        Ok(())
    }

    /// The kind and the beginning of the bracket that this byte closes.
    fn close(&mut self, byte: u8, place: usize) -> Result<(Kind, usize), Fault> {
        let waits = match self.open.last() {
            Some(Open::Tag(waits) | Open::Discard(waits)) => Some(*waits),
            _ => None,
        };
        while let Some(Open::Tag(_) | Open::Discard(_)) = self.open.last() {
            self.open.pop();
        }
        let (kind, start, is_odd) = match (self.open.pop(), byte) {
            (None, _) => return Err(Fault::StrayClose(place)),
            (Some(Open::List(start)), b')') => (Kind::List, start, false),
            (Some(Open::Vector(start)), b']') => (Kind::Vector, start, false),
            (Some(Open::Map { start, odd }), b'}') => (Kind::Map, start, odd),
            (Some(Open::Set(start)), b'}') => (Kind::Set, start, false),
            _ => return Err(Fault::WrongClose(place)),
        };
        match waits {
            Some(waits) => Err(Fault::TagWithoutElement(waits)),
            None if is_odd => Err(Fault::OddMap(place)),
            None => Ok((kind, start)),
        }
    }

    /// Ends an element, and the tags that wait for it; answers it where nothing else is open.
    fn finish(&mut self, mut kind: Kind, mut start: usize, end: usize) -> Option<Element<'t>> {
        loop {
            match self.open.last_mut() {
                None => {
                    self.at = end;
                    return Some(Element {
                        kind,
                        start,
                        text: &self.input[start..end],
                    });
                }
                Some(Open::Tag(began)) => {
                    kind = Kind::Tagged;
                    start = *began;
                    self.open.pop();
                }
                Some(Open::Discard(_)) => {
                    self.open.pop();
                    return None;
                }
                Some(Open::Map { odd, .. }) => {
                    *odd = !*odd;
                    return None;
                }
                Some(Open::List(_) | Open::Vector(_) | Open::Set(_)) => return None,
            }
        }
    }
}

/// Where the run ends that goes on at a place.
fn run_end(input: &[u8], mut at: usize) -> usize {
    while at < input.len() && RUN[input[at] as usize] {
        at += 1;
    }
    at
}

/// The place after the quote that ends the Text whose inside begins at a place.
fn text_end(input: &[u8], mut at: usize) -> Result<usize, Fault> {
    while at < input.len() {
        match input[at] {
            b'"' => return Ok(at + 1),
            b'\\' => at += 2,
            _ => at += 1,
        }
    }
    Err(Fault::Truncated(input.len()))
}

/// How many elements an input has, and how many bytes they have together.
fn count(input: &[u8]) -> Result<(u64, u64), Fault> {
    let mut reader = Reader::new(input);
    let (mut elements, mut bytes) = (0, 0);
    while let Some(element) = reader.next()? {
        elements += 1;
        bytes += element.text.len() as u64;
    }
    Ok((elements, bytes))
}

fn main() -> io::Result<()> {
    let mut input = Vec::new();
    io::stdin().read_to_end(&mut input)?;
    let mut given = (0, 0);
    let mut least = u128::MAX;
    for _ in 0..PASSES {
        let began = Instant::now();
        let counted = count(black_box(&input));
        least = least.min(began.elapsed().as_nanos());
        match counted {
            Ok(counts) => given = counts,
            Err(fault) => {
                println!("{fault:?}");
                return Ok(());
            }
        }
    }
    let (elements, bytes) = given;
    println!("{elements} {bytes} {least}");
    Ok(())
}

#[cfg(test)]
mod tests {
    use super::*;

    /// The elements of a text before its end or its first fault.
    fn read(input: &[u8]) -> (Vec<(Kind, usize, usize)>, Option<Fault>) {
        let mut reader = Reader::new(input);
        let mut elements = Vec::new();
        loop {
            match reader.next() {
                Ok(Some(it)) => {
                    let end = it.start + it.text.len();
                    assert_eq!(it.text, &input[it.start..end]);
                    elements.push((it.kind, it.start, end));
                }
                Ok(None) => return (elements, None),
                Err(fault) => {
                    assert_eq!(reader.next(), Err(fault));
                    return (elements, Some(fault));
                }
            }
        }
    }

    fn deep(end: &str) -> Vec<u8> {
        ["[".repeat(ROOM), end.to_string()].concat().into_bytes()
    }

    #[test]
    fn elements() {
        let rows: [(&[u8], &[(Kind, usize, usize)]); 9] = [
            (b"", &[]),
            (b" ; (\n,", &[]),
            (
                br#"\( #t [1,"a\"b"] #_x :k"#,
                &[
                    (Kind::Char, 0, 2),
                    (Kind::Tagged, 3, 16),
                    (Kind::Atom, 21, 23),
                ],
            ),
            (b"#_ #_ a b c", &[(Kind::Atom, 10, 11)]),
            (b"a\"b\"", &[(Kind::Atom, 0, 1), (Kind::Text, 1, 4)]),
            (b"{:a 1 #_ :b}", &[(Kind::Map, 0, 12)]),
            (
                b"##a #\"\\\"\" #{}#{1}()",
                &[
                    (Kind::Atom, 0, 3),
                    (Kind::Text, 4, 9),
                    (Kind::Set, 10, 13),
                    (Kind::Set, 13, 17),
                    (Kind::List, 17, 19),
                ],
            ),
            (
                b"#a #_b #c d e",
                &[(Kind::Tagged, 0, 11), (Kind::Atom, 12, 13)],
            ),
            (
                b"\\ab\\c#d a\\;",
                &[(Kind::Char, 0, 7), (Kind::Atom, 8, 10)],
            ),
        ];
        for (input, elements) in rows {
            assert_eq!(read(input), (elements.to_vec(), None));
        }
        let closed = deep(&"]".repeat(ROOM));
        assert_eq!(read(&closed), (vec![(Kind::Vector, 0, 128)], None));
    }

    #[test]
    fn faults() {
        let rows: [(&[u8], Fault); 22] = [
            (b"[1 2)", Fault::WrongClose(4)),
            (b"]", Fault::StrayClose(0)),
            (b"{:a}", Fault::OddMap(3)),
            (b"[#t]", Fault::TagWithoutElement(1)),
            (b"#_", Fault::Truncated(2)),
            (b"\\", Fault::Truncated(1)),
            (b"\"a\\\"", Fault::Truncated(4)),
            (b"\"a\\", Fault::Truncated(3)),
            (b"{:a #_ 1}", Fault::OddMap(8)),
            (b"\\[]", Fault::StrayClose(2)),
            (b"#", Fault::Truncated(1)),
            (b"[#t #_]", Fault::TagWithoutElement(4)),
            (b"[#t)", Fault::WrongClose(3)),
            (b"#t ]", Fault::StrayClose(3)),
            (b"{:a #t}", Fault::TagWithoutElement(4)),
            (b"#t", Fault::Truncated(2)),
            (b"#t #_ a", Fault::Truncated(7)),
            (b"#{1 2]", Fault::WrongClose(5)),
            (b"(1 2", Fault::Truncated(4)),
            (b"#\"a", Fault::Truncated(3)),
            (b"#]", Fault::StrayClose(1)),
            (b"{1 #_ #_ 2}", Fault::TagWithoutElement(3)),
        ];
        for (input, fault) in rows {
            assert_eq!(read(input).1, Some(fault), "{}", input.escape_ascii());
        }
        assert_eq!(read(b"\\[]").0, [(Kind::Char, 0, 2)]);
        for end in ["[", "(", "{", "#{", "#_ a", "#t a", "#]", "#)"] {
            assert_eq!(read(&deep(end)).1, Some(Fault::TooDeep(ROOM)), "{end}");
        }
        assert_eq!(read(&deep("#")).1, Some(Fault::Truncated(ROOM + 1)));
        assert_eq!(
            read(&deep("##a \\] \"]\" a")).1,
            Some(Fault::Truncated(ROOM + 12))
        );
    }
}
