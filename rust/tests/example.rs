//! examples/lookup.rs on the library of `make run`, and on made-up ones of both classes, both orders and
//! both tables.

#[path = "../examples/lookup.rs"]
#[allow(dead_code)]
mod lookup;

use fetulombo::{Class, GnuHash, Order, SysvHash, sample};
use lookup::report;

const NAMES: [&str; 6] = [
    "import_lot",
    "import_lot@LOT_1.0",
    "import_lot@LOT_2.0",
    "import_lot@LOT_3.0",
    "seal_lot",
    "seal_lot@LOT_2.0",
];

/// Numbers and values are those that `readelf -W --dyn-syms` prints. The table has the chains 1, 2, 3 and
/// 4, 5 and 6.
#[test]
fn lookups_in_a_real_library() {
    let path = concat!(env!("CARGO_MANIFEST_DIR"), "/../fixtures/lot/liblot.so");
    let file = std::fs::read(path).unwrap();
    assert_eq!(
        report(&file, &NAMES).unwrap(),
        "\
GNU table: accepted, longest chain 3
import_lot: symbol 4, LOT_2.0, value 0x2bc, 1 probe
import_lot@LOT_1.0: symbol 5, LOT_1.0 (hidden), value 0x2b4, 2 probes
import_lot@LOT_2.0: symbol 4, LOT_2.0, value 0x2bc, 1 probe
import_lot@LOT_3.0: nothing, 2 probes
seal_lot: symbol 1, LOT_1.0, value 0x2c4, 1 probe
seal_lot@LOT_2.0: nothing, 3 probes
"
    );
}

/// A field: its value and its width, where 0 is the width of an address.
type Field = (u64, usize);

struct Made {
    class: Class,
    order: Order,
}

impl Made {
    fn address(&self) -> usize {
        match self.class {
            Class::Elf32 => 4,
            Class::Elf64 => 8,
        }
    }

    fn bytes(&self, fields: &[Field]) -> Vec<u8> {
        let bytes = |&(value, width): &Field| {
            let width = if width == 0 { self.address() } else { width };
            match self.order {
                Order::Little => value.to_le_bytes()[..width].to_vec(),
                Order::Big => value.to_be_bytes()[8 - width..].to_vec(),
            }
        };
        fields.iter().flat_map(bytes).collect()
    }

    fn symbols(&self) -> Vec<u8> {
        let symbol = |[name, value, size, info, shndx]: [u64; 5]| match self.class {
            Class::Elf32 => [
                (name, 4),
                (value, 4),
                (size, 4),
                (info, 1),
                (0, 1),
                (shndx, 2),
            ],
            Class::Elf64 => [
                (name, 4),
                (info, 1),
                (0, 1),
                (shndx, 2),
                (value, 8),
                (size, 8),
            ],
        };
        let all = [[0; 5], [1, 0x1000, 8, 0x12, 6], [1, 0x1008, 8, 0x12, 6]];
        self.bytes(&all.map(symbol).concat())
    }

    fn gnu(&self) -> Vec<u8> {
        let hash = u64::from(GnuHash::of(b"import_lot").unwrap().number());
        let bits = self.address() as u64 * 8;
        let bloom = 1 << (hash % bits) | 1 << ((hash >> 5) % bits);
        let values = [(hash & !1, 4), (hash | 1, 4)];
        let head = [(1, 4), (1, 4), (1, 4), (5, 4), (bloom, 0), (1, 4)];
        self.bytes(&[&head[..], &values].concat())
    }

    fn sysv(&self) -> Vec<u8> {
        self.bytes(&[1, 3, 1, 0, 2, 0].map(|word| (word, 4)))
    }

    fn verdef(&self) -> Vec<u8> {
        let one = |name: &[u8], index, at, next| {
            let hash = SysvHash::of(name).unwrap().number().into();
            let head = [(1, 2), (0, 2), (index, 2), (1, 2), (hash, 4), (20, 4)];
            [&head[..], &[(next, 4), (at, 4), (0, 4)]].concat()
        };
        let both = [one(b"LOT_1.0", 2, 12, 28), one(b"LOT_2.0", 3, 20, 0)];
        self.bytes(&both.concat())
    }

    /// A file of the given table's kind, bytes and entry size. Its section 0 is that of all files, which
    /// says nothing.
    fn file(&self, (kind, table, entry): (u64, Vec<u8>, u64)) -> Vec<u8> {
        let parts = [
            (0, Vec::new(), 0, 0),
            (kind, table, 2, entry),
            (11, self.symbols(), 3, 0),
            (3, sample::STRINGS.to_vec(), 0, 0),
            (
                0x6fff_ffff,
                self.bytes(&[(0, 2), (0x8002, 2), (3, 2)]),
                2,
                2,
            ),
            (0x6fff_fffd, self.verdef(), 3, 0),
        ];
        let header = 40 + 3 * self.address();
        let data: Vec<u8> = parts.iter().flat_map(|part| part.1.clone()).collect();
        let [class, order] = match (self.class, self.order) {
            (Class::Elf32, Order::Little) => [1, 1],
            (Class::Elf32, Order::Big) => [1, 2],
            (Class::Elf64, Order::Little) => [2, 1],
            (Class::Elf64, Order::Big) => [2, 2],
        };
        let mut file = b"\x7fELF".to_vec();
        file.extend([class, order, 1, 0, 0, 0, 0, 0, 0, 0, 0, 0]);
        // Type, machine, version, entry, program headers, section headers, flags, and seven numbers.
        let place = (header + data.len()) as u64;
        let size = 16 + 6 * self.address() as u64;
        file.extend(self.bytes(&[(3, 2), (0, 2), (1, 4), (0, 0), (0, 0), (place, 0), (0, 4)]));
        file.extend(self.bytes(&[0, 0, 0, size, 6, 0].map(|number| (number, 2))));
        assert_eq!(file.len(), header);
        file.extend(data);
        let mut offset = header as u64;
        for (kind, part, link, entry) in parts {
            let length = part.len() as u64;
            let place = [
                (offset, 0),
                (length, 0),
                (link, 4),
                (0, 4),
                (1, 0),
                (entry, 0),
            ];
            file.extend(self.bytes(&[(0, 4), (kind, 4), (0, 0), (0, 0)]));
            file.extend(self.bytes(&place));
            offset += length;
        }
        file
    }
}

const KINDS: [Made; 4] = [
    Made {
        class: Class::Elf32,
        order: Order::Little,
    },
    Made {
        class: Class::Elf32,
        order: Order::Big,
    },
    Made {
        class: Class::Elf64,
        order: Order::Little,
    },
    Made {
        class: Class::Elf64,
        order: Order::Big,
    },
];

#[test]
fn lookups_in_both_classes_orders_and_tables() {
    for made in KINDS {
        let gnu = made.file((0x6fff_fff6, made.gnu(), 0));
        assert_eq!(
            report(&gnu, &NAMES).unwrap(),
            "\
GNU table: accepted, longest chain 2
import_lot: symbol 2, LOT_2.0, value 0x1008, 2 probes
import_lot@LOT_1.0: symbol 1, LOT_1.0 (hidden), value 0x1000, 1 probe
import_lot@LOT_2.0: symbol 2, LOT_2.0, value 0x1008, 2 probes
import_lot@LOT_3.0: nothing, 2 probes
seal_lot: nothing, 0 probes
seal_lot@LOT_2.0: nothing, 0 probes
"
        );
        let sysv = made.file((5, made.sysv(), 4));
        assert_eq!(
            report(&sysv, &NAMES).unwrap(),
            "\
SysV table: accepted
import_lot: symbol 2, LOT_2.0, value 0x1008, 2 probes
import_lot@LOT_1.0: symbol 1, LOT_1.0 (hidden), value 0x1000, 1 probe
import_lot@LOT_2.0: symbol 2, LOT_2.0, value 0x1008, 2 probes
import_lot@LOT_3.0: nothing, 2 probes
seal_lot: nothing, 2 probes
seal_lot@LOT_2.0: nothing, 2 probes
"
        );
    }
}

/// The parts that the example finds in a made-up file are those of the documentation's sample.
#[test]
fn the_made_up_library_is_the_sample() {
    let made = &KINDS[0];
    assert_eq!(made.gnu(), sample::GNU);
    assert_eq!(made.sysv(), sample::SYSV);
    assert_eq!(made.symbols(), sample::SYMBOLS);
    assert_eq!(made.verdef(), sample::VERDEF);
}

#[test]
fn what_cannot_be_looked_up_is_said() {
    let refused = |file: &[u8]| report(file, &["import_lot"]).unwrap_err().to_string();
    let unknown = "refused (39): a class or a byte order that is none";
    for made in KINDS {
        let file = made.file((0x6fff_fff6, made.gnu(), 0));
        assert_eq!(refused(&file[1..]), "no ELF file");
        assert_eq!(refused(&file[..51]), "no ELF file");
        assert_eq!(
            refused(&file[..file.len() - 1]),
            "section headers outside the file"
        );
        for at in [4, 5] {
            for byte in [0, 3, 255] {
                let mut file = file.clone();
                file[at] = byte;
                assert_eq!(refused(&file), unknown);
            }
        }
        // The table, cut short and broken.
        let short = made.file((0x6fff_fff6, made.gnu()[..15].to_vec(), 0));
        assert_eq!(
            refused(&short),
            "refused (26): a GNU table's header is short"
        );
        let cut = made.gnu().len() - 4;
        let broken = made.file((0x6fff_fff6, made.gnu()[..cut].to_vec(), 0));
        let text = report(&broken, &[]).unwrap();
        assert_eq!(
            text,
            "GNU table: NOT TO BE RELIED ON, rule G5 is broken at 0\n"
        );
        let none = made.file((1, made.gnu(), 0));
        assert_eq!(refused(&none), "no hash table");
        // The link of the versyms is that of another section.
        let mut other = file.clone();
        let record = file.len() - 2 * (16 + 6 * made.address());
        let link = record + 8 + 4 * made.address();
        other[link..link + 4].copy_from_slice(&made.bytes(&[(3, 4)]));
        assert_eq!(refused(&other), "versyms of other symbols");
        // Words of 8 bytes.
        let wide = made.bytes(&[1, 3, 1, 0, 2, 0].map(|word| (word, 8)));
        let wide = made.file((5, wide, 8));
        assert_eq!(refused(&wide), "a SysV table whose words have 8 bytes");
    }
}
