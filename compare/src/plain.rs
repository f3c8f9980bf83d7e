//! The lookups with their probes and the two checkers, straight from the words of the
//! scope document: plain, quadratic where that is simplest, and sharing nothing with the archive.
//! The original has no probes and no checkers, so these are held against this.

/// The most bytes that a part may have.
const LIMIT: usize = 1_073_741_824;

/// A hash table with its symbols.
#[derive(Clone, Copy)]
pub struct Plain<'a> {
    pub is64: bool,
    pub big: bool,
    pub table: &'a [u8],
    pub symbols: &'a [u8],
    pub strings: &'a [u8],
}

/// A symbol, if there is one, and the probes; or a refusal's number.
pub type Found = Result<(Option<u32>, u64), u32>;

/// Accepted with the longest chain (of a GNU table), or the first broken rule with its place; or a
/// refusal's number.
#[derive(Debug, Clone, Copy, PartialEq, Eq)]
pub enum Verdict {
    Accepted(u64),
    Broken(u32, u32),
}

pub fn word(big: bool, bytes: &[u8], at: usize, width: usize) -> u64 {
    let mut value = 0;
    for k in 0..width {
        let byte = u64::from(bytes[at + k]);
        value += byte << (8 * if big { width - 1 - k } else { k });
    }
    value
}

/// GNU: start 5381, then times 33 plus the byte, modulo 2^32.
pub fn gnu_hash(name: &[u8]) -> u32 {
    name.iter()
        .fold(5381u64, |h, &b| (h * 33 + u64::from(b)) % (1 << 32)) as u32
}

/// SysV as in the gABI, 32-bit.
pub fn sysv_hash(name: &[u8]) -> u32 {
    let mut h: u32 = 0;
    for &b in name {
        h = (h << 4).wrapping_add(u32::from(b));
        let g = h & 0xf000_0000;
        if g != 0 {
            h ^= g >> 24;
        }
        h &= !g;
    }
    h
}

impl<'a> Plain<'a> {
    fn u32(&self, at: usize) -> u32 {
        word(self.big, self.table, at, 4) as u32
    }

    /// How many symbols there are: whole records.
    pub fn count(&self) -> usize {
        self.symbols.len() / self.symbol_size()
    }

    fn symbol_size(&self) -> usize {
        if self.is64 { 24 } else { 16 }
    }

    /// The name of a symbol, if there is the symbol and its name can be read.
    pub fn name(&self, symbol: usize) -> Option<&'a [u8]> {
        if symbol >= self.count() {
            return None;
        }
        let start = word(self.big, self.symbols, symbol * self.symbol_size(), 4) as usize;
        let rest = self.strings.get(start..)?;
        let length = rest.iter().position(|&b| b == 0)?;
        Some(&rest[..length])
    }

    fn too_long(&self) -> bool {
        [self.table, self.symbols, self.strings]
            .iter()
            .any(|part| part.len() > LIMIT)
    }

    /// SysV: bucket_count and chain_count, or 23 to 25.
    fn sysv_header(&self) -> Result<(usize, usize), u32> {
        if self.table.len() < 8 {
            return Err(23);
        }
        let (buckets, chains) = (self.u32(0) as usize, self.u32(4) as usize);
        if self.table.len() < 8 + buckets * 4 {
            return Err(24);
        }
        if self.table.len() < 8 + buckets * 4 + chains * 4 {
            return Err(25);
        }
        Ok((buckets, chains))
    }

    /// `matches` says whether a symbol's version is the one that is needed.
    pub fn sysv_find(&self, name: &[u8], hash: u32, matches: &dyn Fn(u32) -> bool) -> Found {
        let (buckets, chains) = self.sysv_header()?;
        if buckets == 0 {
            return Ok((None, 0));
        }
        let mut number = self.u32(8 + (hash as usize % buckets) * 4);
        let mut tests = 0;
        while number != 0 && tests < chains as u64 {
            tests += 1;
            if self.name(number as usize) == Some(name) && matches(number) {
                return Ok((Some(number), tests));
            }
            if number as usize >= chains {
                break;
            }
            number = self.u32(8 + (buckets + number as usize) * 4);
        }
        Ok((None, tests))
    }

    /// GNU: the header and the places, or 26 to 28.
    fn gnu_header(&self) -> Result<Gnu, u32> {
        if self.table.len() < 16 {
            return Err(26);
        }
        let width = if self.is64 { 8 } else { 4 };
        let bucket_count = self.u32(0) as usize;
        let bloom_count = self.u32(8) as usize;
        let buckets_at = 16 + bloom_count * width;
        if self.table.len() < buckets_at {
            return Err(27);
        }
        let values_at = buckets_at + bucket_count * 4;
        if self.table.len() < values_at {
            return Err(28);
        }
        Ok(Gnu {
            bucket_count,
            symbol_base: self.u32(4) as usize,
            bloom_count,
            shift: self.u32(12),
            width,
            buckets_at,
            values_at,
            values: (self.table.len() - values_at) / 4,
        })
    }

    fn bucket(&self, gnu: &Gnu, b: usize) -> usize {
        self.u32(gnu.buckets_at + b * 4) as usize
    }

    fn value(&self, gnu: &Gnu, symbol: usize) -> u32 {
        self.u32(gnu.values_at + (symbol - gnu.symbol_base) * 4)
    }

    /// The bloom word of a hash.
    fn bloom(&self, gnu: &Gnu, hash: u32) -> u64 {
        let bits = gnu.width * 8;
        let place = (hash as usize / bits) & (gnu.bloom_count - 1);
        word(self.big, self.table, 16 + place * gnu.width, gnu.width)
    }

    pub fn gnu_find(&self, name: &[u8], hash: u32, matches: &dyn Fn(u32) -> bool) -> Found {
        let gnu = self.gnu_header()?;
        let bits = gnu.width as u32 * 8;
        let none = Ok((None, 0));
        if gnu.bloom_count == 0 || self.bloom(&gnu, hash) >> (hash % bits) & 1 == 0 {
            return none;
        }
        if gnu.shift > 31 {
            return Err(30);
        }
        if self.bloom(&gnu, hash) >> ((hash >> gnu.shift) % bits) & 1 == 0 {
            return none;
        }
        if gnu.bucket_count == 0 {
            return none;
        }
        let start = self.bucket(&gnu, hash as usize % gnu.bucket_count);
        if start == 0 || start > self.count() || start < gnu.symbol_base {
            return none;
        }
        if start - gnu.symbol_base > gnu.values {
            return none;
        }
        let mut probes = 0;
        for symbol in start..self.count() {
            if symbol - gnu.symbol_base >= gnu.values {
                break;
            }
            probes += 1;
            let value = self.value(&gnu, symbol);
            if value | 1 == hash | 1 && self.name(symbol) == Some(name) && matches(symbol as u32) {
                return Ok((Some(symbol as u32), probes));
            }
            if value & 1 == 1 {
                break;
            }
        }
        Ok((None, probes))
    }

    /// The GNU checker.
    pub fn gnu_check(&self) -> Result<Verdict, u32> {
        if self.too_long() {
            return Err(1);
        }
        let gnu = self.gnu_header()?;
        let n = self.count();
        let broken = |rule, place: usize| Ok(Verdict::Broken(rule, place as u32));
        if !(1 <= gnu.symbol_base && gnu.symbol_base <= n) {
            return broken(1, 0);
        }
        if !gnu.bloom_count.is_power_of_two() {
            return broken(2, 0);
        }
        if gnu.bucket_count == 0 {
            return broken(3, 0);
        }
        if gnu.shift > 31 {
            return broken(4, 0);
        }
        if gnu.values < n - gnu.symbol_base {
            return broken(5, 0);
        }
        let hashed = gnu.symbol_base..n;
        for symbol in hashed.clone() {
            if self.name(symbol).is_none() {
                return broken(6, symbol);
            }
        }
        let hash: Vec<u32> = (0..n)
            .map(|symbol| gnu_hash(self.name(symbol).unwrap_or(b"")))
            .collect();
        for symbol in hashed.clone() {
            if self.value(&gnu, symbol) | 1 != hash[symbol] | 1 {
                return broken(7, symbol);
            }
        }
        let bits = gnu.width as u32 * 8;
        for symbol in hashed.clone() {
            let word = self.bloom(&gnu, hash[symbol]);
            let first = word >> (hash[symbol] % bits) & 1;
            let second = word >> ((hash[symbol] >> gnu.shift) % bits) & 1;
            if first == 0 || second == 0 {
                return broken(8, symbol);
            }
        }
        let bucket_of = |symbol: usize| hash[symbol] as usize % gnu.bucket_count;
        let mut longest = 0;
        for b in 0..gnu.bucket_count {
            let members: Vec<usize> = hashed.clone().filter(|&s| bucket_of(s) == b).collect();
            longest = longest.max(members.len());
            let lowest = members.first().copied().unwrap_or(0);
            let consecutive = members.iter().enumerate().all(|(k, &s)| s == lowest + k);
            if self.bucket(&gnu, b) != lowest || !consecutive {
                return broken(9, b);
            }
        }
        for symbol in hashed.clone() {
            let last = (symbol + 1..n).all(|later| bucket_of(later) != bucket_of(symbol));
            if (self.value(&gnu, symbol) & 1 == 1) != last {
                return broken(10, symbol);
            }
        }
        Ok(Verdict::Accepted(longest as u64))
    }

    /// The SysV checker; the place of a broken rule is always 0.
    pub fn sysv_check(&self) -> Result<Verdict, u32> {
        if self.too_long() {
            return Err(1);
        }
        let (buckets, chains) = self.sysv_header()?;
        let n = self.count();
        if !(n >= 1 && chains == n && buckets >= 1) {
            return Ok(Verdict::Broken(1, 0));
        }
        if (1..n).any(|symbol| self.name(symbol).is_none()) {
            return Ok(Verdict::Broken(2, 0));
        }
        // How often each number stands on a chain, and on the one of its hash.
        let mut times = vec![0u32; n];
        for b in 0..buckets {
            let mut number = self.u32(8 + b * 4) as usize;
            for _ in 0..=n {
                if number == 0 {
                    break;
                }
                if number >= n {
                    return Ok(Verdict::Broken(3, 0));
                }
                times[number] += 1;
                let name = self.name(number).unwrap_or(b"");
                if sysv_hash(name) as usize % buckets != b || times[number] > 1 {
                    return Ok(Verdict::Broken(3, 0));
                }
                number = self.u32(8 + (buckets + number) * 4) as usize;
            }
        }
        match times[1..].iter().all(|&times| times == 1) {
            true => Ok(Verdict::Accepted(0)),
            false => Ok(Verdict::Broken(3, 0)),
        }
    }
}

/// A GNU table's header and the places of its parts.
struct Gnu {
    bucket_count: usize,
    symbol_base: usize,
    bloom_count: usize,
    shift: u32,
    width: usize,
    buckets_at: usize,
    values_at: usize,
    values: usize,
}
