//! What the checkers say of real libraries, and of one library whose tables are damaged by one rule
//! at a time, so that another checker can be asked about the same files.

use crate::checks::{gnu_verdict, sysv_verdict};
use crate::libraries::{DYNSYM, GNU_HASH, HASH, Library};
use crate::plain::Verdict;
use crate::report::Answer;
use crate::tables::{Symbols, of_library};
use fetulombo::Order;
use std::collections::BTreeMap;
use std::path::Path;

fn said(verdict: Answer<Verdict>, letter: char) -> String {
    match verdict {
        Ok(Verdict::Accepted(_)) => "accepted".to_owned(),
        Ok(Verdict::Broken(rule, place)) => format!("{letter}{rule} at {place}"),
        Err(number) => format!("refused {number}"),
    }
}

/// Every library below these folders: counts of verdicts, and each that is not accepted.
pub fn print(folders: &[String]) {
    let mut counts: BTreeMap<String, u64> = BTreeMap::new();
    let mut longest = 0;
    for path in Library::below(folders) {
        let Some(library) = Library::open(&path) else {
            continue;
        };
        let Some((made, gnu, sysv)) = of_library(&library) else {
            continue;
        };
        let kind = format!("{:?} {:?}", made.class, made.order);
        let mut told = |table: &str, verdict: Answer<Verdict>, letter| {
            if let Ok(Verdict::Accepted(most)) = verdict {
                longest = longest.max(most);
            } else {
                let name = path.file_name().unwrap_or_default().to_string_lossy();
                println!("{kind} {table} {}: {name}", said(verdict, letter));
            }
            let verdict = match verdict {
                Ok(Verdict::Accepted(_)) => "accepted".to_owned(),
                Ok(Verdict::Broken(rule, _)) => format!("{letter}{rule}"),
                Err(number) => format!("refused {number}"),
            };
            *counts
                .entry(format!("{table}, {kind}: {verdict}"))
                .or_default() += 1;
        };
        if !gnu.is_empty() {
            told("GNU", gnu_verdict(&made, &gnu), 'G');
        }
        if !sysv.is_empty() {
            told("SysV", sysv_verdict(&made, &sysv), 'T');
        }
    }
    for (what, count) in counts {
        println!("{count:6} {what}");
    }
    println!("longest chain of an accepted GNU table: {longest}");
}

/// A change of one number of a table: which word, counted from the table's start, and its new value.
type Change = (usize, fn(u32) -> u32);

/// Writes a copy of the library for each rule, damaged so that it breaks that rule, and prints what
/// the checkers say of it. The library has both tables, 64 bits, little numbers, and one bloom word.
pub fn damage(library: &str, folder: &str) {
    let library = Library::open(Path::new(library)).expect("a library");
    let (made, gnu, sysv) = of_library(&library).expect("dynamic symbols");
    assert!(!gnu.is_empty() && !sysv.is_empty() && made.order == Order::Little);
    let word = |table: &[u8], k: usize| {
        u32::from_le_bytes(table[k * 4..k * 4 + 4].try_into().unwrap()) as usize
    };
    let (buckets, base, blooms) = (word(&gnu, 0), word(&gnu, 1), word(&gnu, 2));
    let (first_bucket, first_value) = (4 + blooms * 2, 4 + blooms * 2 + buckets);
    let used = (0..buckets)
        .find(|&b| word(&gnu, first_bucket + b) != 0)
        .expect("a symbol");
    let n = made.plain(&[]).count();
    let sysv_buckets = word(&sysv, 0);
    let chains = 2 + sysv_buckets;
    let start = word(&sysv, 2);
    println!("{n} symbols, base {base}, {buckets} GNU buckets, {sysv_buckets} SysV buckets");
    let gnu_changes: [(&str, Change); 12] = [
        ("good", (0, |word| word)),
        ("G1_base_0", (1, |_| 0)),
        ("G1_base_past_the_symbols", (1, |_| 99)),
        ("G2_bloom_count_0", (2, |_| 0)),
        ("G3_no_buckets", (0, |_| 0)),
        ("G4_shift_32", (3, |_| 32)),
        (
            "G7_a_high_bit_changed",
            (first_value, |word| word ^ 1 << 31),
        ),
        ("G8_bloom_empty", (4, |_| 0)),
        ("G8_bloom_all_ones", (4, |_| u32::MAX)),
        ("G9_a_bucket_emptied", (first_bucket + used, |_| 0)),
        (
            "G9_a_bucket_moved_on",
            (first_bucket + used, |word| word + 1),
        ),
        ("G10_an_end_bit_turned", (first_value, |word| word ^ 1)),
    ];
    for (name, change) in gnu_changes {
        write(&library, &made, folder, name, GNU_HASH, change);
    }
    let sysv_changes: [(&str, Change); 7] = [
        ("T1_no_buckets", (0, |_| 0)),
        ("T1_a_chain_less", (1, |word| word - 1)),
        ("T1_a_chain_more", (1, |word| word + 1)),
        ("T3_a_bucket_past_the_symbols", (2, |_| 77)),
        ("T3_a_bucket_emptied", (2, |_| 0)),
        ("T3_a_circle", (chains + start, |_| 1)),
        ("T3_chain_word_0", (chains, |_| 77)),
    ];
    for (name, (at, change)) in sysv_changes {
        // The circle leads from the first symbol of the first chain back to itself.
        if name == "T3_a_circle" {
            write_value(&library, &made, folder, name, HASH, at, start as u32);
        } else {
            write(&library, &made, folder, name, HASH, (at, change));
        }
    }
    // The last symbol's name: at the strings' end, and in strings that do not end in a zero.
    let size = if made.word() == 8 { 6 } else { 4 };
    let past = made.strings.len() as u32;
    write_value(
        &library,
        &made,
        folder,
        "G6_T2_name_past_the_strings",
        DYNSYM,
        (n - 1) * size,
        past,
    );
}

fn write(
    library: &Library,
    made: &Symbols,
    folder: &str,
    name: &str,
    kind: u32,
    (at, change): Change,
) {
    let section = library.first(kind);
    let old = &library.bytes[section + at * 4..section + at * 4 + 4];
    let new = change(u32::from_le_bytes(old.try_into().unwrap()));
    write_value(library, made, folder, name, kind, at, new);
}

fn write_value(
    library: &Library,
    made: &Symbols,
    folder: &str,
    name: &str,
    kind: u32,
    at: usize,
    value: u32,
) {
    let mut bytes = library.bytes.clone();
    let place = library.first(kind) + at * 4;
    bytes[place..place + 4].copy_from_slice(&value.to_le_bytes());
    let path = Path::new(folder).join(format!("{name}.so"));
    std::fs::write(&path, bytes).expect("the folder can be written");
    let damaged = Library::open(&path).expect("a library");
    let (damaged, gnu, sysv) = of_library(&damaged).expect("dynamic symbols");
    assert_eq!(damaged.class, made.class);
    println!(
        "{name}: GNU {}, SysV {}",
        said(gnu_verdict(&damaged, &gnu), 'G'),
        said(sysv_verdict(&damaged, &sysv), 'T')
    );
}
