//! Strings at an offset, and compared with a name.

use crate::Run;
use crate::inputs::lists;
use crate::libraries::STRTAB;
use crate::limits::{self, Limits};
use crate::memory::Long;
use crate::report::{Answer, hex};
use fetulombo::LIMIT;

pub fn compare(run: &mut Run) {
    short(run);
    one_byte(run);
    random(run);
    libraries(run);
}

/// What `string_at` answers, as the oracle has it.
pub fn ours(strings: &[u8], offset: u32) -> Answer<(usize, usize)> {
    fetulombo::string_place(strings, offset)
        .map(|place| (place.start, place.len()))
        .map_err(|refusal| refusal.number())
}

fn at(run: &mut Run, strings: &[u8], offset: u32) {
    let original = match strings.len() <= LIMIT {
        true => oracle::string_at(strings, offset),
        false => Err(1),
    };
    run.report.same(
        "string_at",
        ours(strings, offset),
        original,
        |_| "string",
        || format!("strings {} offset {offset}", hex(strings)),
    );
}

/// The comparison that the original's lookups make: the name of a symbol, read, is `Ok(name)`.
pub fn original_equals(strings: &[u8], offset: u32, name: &[u8]) -> Answer<bool> {
    if strings.len() > LIMIT || name.len() > LIMIT {
        return Err(1);
    }
    Ok(match oracle::string_at(strings, offset) {
        Ok((start, length)) => &strings[start..start + length] == name,
        Err(_) => false,
    })
}

fn equals(run: &mut Run, strings: &[u8], offset: u32, name: &[u8]) {
    run.report.same(
        "string_equals",
        fetulombo::string_equals(strings, offset, name).map_err(|refusal| refusal.number()),
        original_equals(strings, offset, name),
        |&equal| if equal { "equal" } else { "not equal" },
        || {
            let (strings, name) = (hex(strings), hex(name));
            format!("strings {strings} offset {offset} name {name}")
        },
    );
}

/// Every table of up to 2 bytes, every one of up to 8 that are 0 or not, at every offset; every
/// small table with every small name.
fn short(run: &mut Run) {
    let all: Vec<u8> = (0..=255).collect();
    let short = lists(&all, 2).into_iter().step_by(run.step());
    for strings in short.chain(lists(b"\0a", 8)) {
        for offset in 0..=strings.len() as u32 + 2 {
            at(run, &strings, offset);
        }
        at(run, &strings, u32::MAX);
    }
    let names = lists(b"\0ab", 3);
    for strings in lists(b"\0ab", 5) {
        for offset in 0..=strings.len() as u32 + 1 {
            for name in &names {
                equals(run, &strings, offset, name);
            }
        }
    }
}

/// Names of up to 40 bytes, of the strings that have them and of those that differ in one byte, their
/// end among these.
fn one_byte(run: &mut Run) {
    for length in 0..=40 {
        let name: Vec<u8> = (b'a'..).take(length).collect();
        let mut strings = [b"x", &name[..], b"\0y\0"].concat();
        equals(run, &strings, 1, &name);
        for place in 1..=length + 1 {
            for other in [0, b'!'] {
                let byte = std::mem::replace(&mut strings[place], other);
                equals(run, &strings, 1, &name);
                strings[place] = byte;
            }
        }
    }
}

fn random(run: &mut Run) {
    for _ in 0..run.times(2_000_000) {
        let length = run.random.below(100);
        let zeros = run.random.of(&[2, 10, 1000]);
        let strings = run.random.bytes(length, zeros);
        let offset = run.random.near(&[0, length as u64]) as u32;
        at(run, &strings, offset);
        let name = match ours(&strings, offset) {
            Ok((start, length)) => match run.random.below(3) {
                0 => strings[start..start + length].to_vec(),
                1 => run.random.damaged(&strings[start..start + length]),
                _ => strings[start..start + length + 1].to_vec(),
            },
            Err(_) => strings.get(offset as usize..).unwrap_or(&[]).to_vec(),
        };
        equals(run, &strings, offset, &name);
    }
}

/// Zeros but for the first byte; no zero at all; one zero, at the end, with names of almost that length.
pub fn limits(run: &mut Run, parts: &mut limits::Parts) {
    let mut other = Long::of(b'a');
    for &length in run.limits.lengths() {
        let end = length as u32;
        let offsets = match run.limits {
            Limits::All => &[0, 1, end - 2, end - 1, end, end + 1, u32::MAX][..],
            _ if run.is_part() => &[0],
            _ => &[0, end - 1, end],
        };
        parts.zeros[0] = b'a';
        for last in [b'a', 0] {
            parts.letters[length - 1] = last;
            let (zeros, letters) = (&parts.zeros[..length], &parts.letters[..length]);
            for &offset in offsets {
                for strings in [zeros, letters] {
                    at(run, strings, offset);
                    equals(run, strings, offset, b"a");
                }
                equals(run, b"a\0", offset, letters);
            }
            equals(run, letters, 0, letters);
            let name = length - 1;
            equals(run, letters, 0, &other[..name]);
            other[name - 1] = b'b';
            equals(run, letters, 0, &other[..name]);
            other[name - 1] = b'a';
        }
        parts.letters.renew();
        other.renew();
    }
}

fn libraries(run: &mut Run) {
    for library in run.libraries {
        for section in library.sections.iter().filter(|s| s.kind == STRTAB) {
            let strings = library.part(section);
            let damaged = run.random.damaged(strings);
            for _ in 0..run.times(1000) {
                let offset = run.random.below(strings.len() + 3) as u32;
                at(run, strings, offset);
                at(run, &damaged, offset);
                if let Ok((start, length)) = ours(strings, offset) {
                    equals(run, strings, offset, &strings[start..start + length]);
                    equals(run, &damaged, offset, &strings[start..start + length]);
                }
            }
        }
    }
}
