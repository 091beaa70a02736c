//! A plan from its text: the grammar of docs/FORMATS.md, "The text of a plan".

use crate::plan::*;
use crate::section::ProgramSection;

/// The number that stands for any version. A text has the word `any` instead.
const ANY_VERSION: u32 = 0xffff_fffe;

type Words<'t> = std::slice::Split<'t, u8, fn(&u8) -> bool>;

/// The lines that are left of a text, and the number of those before them.
struct Lines<'t> {
    rest: &'t [u8],
    read: usize,
}

fn words_of(line: &[u8]) -> Words<'_> {
    line.split(|byte| *byte == b' ')
}

impl<'t> Lines<'t> {
    /// The next line, and what is left after it.
    fn next(&self) -> Option<(&'t [u8], &'t [u8])> {
        let end = self.rest.iter().position(|byte| *byte == b'\n')?;
        Some((&self.rest[..end], &self.rest[end + 1..]))
    }

    fn is_at(&self, keyword: &str) -> bool {
        self.next()
            .is_some_and(|(line, _)| words_of(line).next() == Some(keyword.as_bytes()))
    }

    /// Goes on after the next line, if it begins with a keyword and all its words can be read.
    fn take<T>(
        &mut self,
        keyword: &str,
        read: impl FnOnce(&mut Words<'t>) -> Option<T>,
    ) -> Option<T> {
        let (line, rest) = self.next()?;
        let mut words = words_of(line);
        if words.next() != Some(keyword.as_bytes()) {
            return None;
        }
        let value = read(&mut words)?;
        if words.next().is_some() {
            return None;
        }
        self.rest = rest;
        self.read += 1;
        Some(value)
    }

    fn plan(&mut self) -> Option<Plan> {
        let text_version = self.take("bpf-plan", |words| {
            number(words, 2).filter(|version| *version > 0)
        })?;
        let license = self.take("license", |words| {
            hex(words).filter(|bytes| !bytes.contains(&0))
        })?;
        let version = self.take("version", kernel_version)?;
        let mut features: Vec<(BtfFeature, bool)> = Vec::new();
        while self.is_at("feature") {
            features.push(self.take("feature", |words| {
                feature(words).filter(|(asked, _)| features.iter().all(|(it, _)| it != asked))
            })?);
        }
        let type_bytes = self.take("types", types)?;
        let mut maps: Vec<PlanMap> = Vec::new();
        while self.is_at("map") {
            let last = maps.last().map(|map| map.name.as_str());
            maps.push(self.map(last)?);
        }
        let mut programs: Vec<PlanProgram> = Vec::new();
        while self.is_at("program") {
            let last = programs.last().map(|program| program.name.as_str());
            programs.push(self.program(last, text_version == 2)?);
        }
        self.take("end", |_| Some(()))?;
        self.rest.is_empty().then_some(Plan {
            license,
            version,
            features,
            type_bytes,
            maps,
            programs,
        })
    }

    fn map(&mut self, last: Option<&str>) -> Option<PlanMap> {
        let mut map = self.take("map", |words| {
            let name = name_after(words, last)?;
            let number = number(words, i32::MAX as u64)? as u32;
            let is_btf = match words.next()? {
                b"btf" => true,
                b"legacy" => false,
                _ => return None,
            };
            Some(PlanMap {
                name,
                number,
                is_btf,
                words: map_words(words, is_btf)?,
                contents: hex(words)?,
                inner: None,
            })
        })?;
        if self.is_at("inner") {
            map.inner = Some(self.take("inner", |words| map_words(words, map.is_btf))?);
        }
        Some(map)
    }

    fn program(&mut self, last: Option<&str>, has_tables: bool) -> Option<PlanProgram> {
        let (name, section) = self.take("program", |words| {
            let name = name_after(words, last)?;
            let mut next = || Some(number(words, 255)? as u8);
            let section = ProgramSection::from_numbers(next()?, next()?, next()?)?;
            Some((name, section))
        })?;
        let slots = self.take("slots", slots)?;
        let tables = if has_tables {
            self.take("tables", tables)?
        } else {
            None
        };
        let mut func_records = Vec::new();
        while self.is_at("func") {
            func_records.push(self.take("func", |words| {
                Some(bpf_func_info {
                    insn_off: number_32(words)?,
                    type_id: number_32(words)?,
                })
            })?);
        }
        let mut line_records = Vec::new();
        while self.is_at("line") {
            line_records.push(self.take("line", line_record)?);
        }
        Some(PlanProgram {
            name,
            section,
            slots,
            func_records,
            line_records,
            tables,
        })
    }
}

/// A number in decimal digits without leading zeros.
fn number(words: &mut Words<'_>, most: u64) -> Option<u64> {
    let word = std::str::from_utf8(words.next()?).ok()?;
    let number = word.parse::<u64>().ok()?;
    (number <= most && number.to_string() == word).then_some(number)
}

fn number_32(words: &mut Words<'_>) -> Option<u32> {
    Some(number(words, u32::MAX.into())? as u32)
}

fn digit(byte: u8) -> Option<u8> {
    match byte {
        b'0'..=b'9' => Some(byte - b'0'),
        b'a'..=b'f' => Some(byte - b'a' + 10),
        _ => None,
    }
}

/// Bytes in lower-case hexadecimal digits; a dash stands for none.
fn hex(words: &mut Words<'_>) -> Option<Vec<u8>> {
    let word = words.next()?;
    if word == b"-" {
        return Some(Vec::new());
    }
    if word.is_empty() || word.len() % 2 != 0 {
        return None;
    }
    word.chunks_exact(2)
        .map(|pair| Some(digit(pair[0])? << 4 | digit(pair[1])?))
        .collect()
}

/// A name that is above the one before it by its bytes.
fn name_after(words: &mut Words<'_>, last: Option<&str>) -> Option<String> {
    let name = String::from_utf8(hex(words)?).ok()?;
    last.is_none_or(|last| last < name.as_str()).then_some(name)
}

fn kernel_version(words: &mut Words<'_>) -> Option<Option<u32>> {
    let mut ahead = words.clone();
    if ahead.next()? == b"any" {
        *words = ahead;
        return Some(None);
    }
    Some(Some(
        number_32(words).filter(|version| *version != ANY_VERSION)?,
    ))
}

fn feature(words: &mut Words<'_>) -> Option<(BtfFeature, bool)> {
    let feature = match words.next()? {
        b"Func" => BtfFeature::Func,
        b"FuncGlobal" => BtfFeature::FuncGlobal,
        b"DataSec" => BtfFeature::DataSec,
        b"DataSecZero" => BtfFeature::DataSecZero,
        b"Float" => BtfFeature::Float,
        b"DeclTag" => BtfFeature::DeclTag,
        b"TypeTag" => BtfFeature::TypeTag,
        b"Enum64" => BtfFeature::Enum64,
        _ => return None,
    };
    match words.next()? {
        b"yes" => Some((feature, true)),
        b"no" => Some((feature, false)),
        _ => None,
    }
}

fn types(words: &mut Words<'_>) -> Option<Option<Vec<u8>>> {
    let mut ahead = words.clone();
    if ahead.next()? == b"none" {
        *words = ahead;
        return Some(None);
    }
    Some(Some(hex(words).filter(|bytes| !bytes.is_empty())?))
}

fn map_words(words: &mut Words<'_>, is_btf: bool) -> Option<MapWords> {
    let read = MapWords {
        map_type: number_32(words)?,
        key_size: number_32(words)?,
        value_size: number_32(words)?,
        max_entries: number_32(words)?,
        map_flags: number_32(words)?,
        map_extra: number(words, u64::MAX)?,
        pinning: match number(words, 1)? {
            0 => PinningType::None,
            _ => PinningType::ByName,
        },
        id: number_32(words)?,
        btf_key_type_id: number_32(words)?,
        btf_value_type_id: number_32(words)?,
    };
    let is_sound = if is_btf {
        read.id == 0
    } else {
        read.map_extra == 0 && read.btf_key_type_id == 0 && read.btf_value_type_id == 0
    };
    is_sound.then_some(read)
}

fn slots(words: &mut Words<'_>) -> Option<Vec<bpf_insn>> {
    let bytes = hex(words)?;
    let slots = bytes.chunks_exact(8);
    if !slots.remainder().is_empty() {
        return None;
    }
    slots
        .map(|slot| Some(bpf_insn::from_bytes(slot.try_into().ok()?)))
        .collect()
}

/// The places of kernel tables, if they are known, from all words that are left.
fn tables(words: &mut Words<'_>) -> Option<Option<Vec<u32>>> {
    let mut ahead = words.clone();
    let (first, second) = (ahead.next()?, ahead.next());
    if second.is_none() && (first == b"-" || first == b"?") {
        *words = ahead;
        return Some((first == b"-").then(Vec::new));
    }
    let mut places = Vec::new();
    while words.clone().next().is_some() {
        let place = number_32(words)?;
        if places.last().is_some_and(|last| *last >= place) {
            return None;
        }
        places.push(place);
    }
    Some(Some(places))
}

fn line_record(words: &mut Words<'_>) -> Option<bpf_line_info> {
    Some(bpf_line_info {
        insn_off: number_32(words)?,
        file_name_off: number_32(words)?,
        line_off: number_32(words)?,
        line_col: number_32(words)?,
    })
}

/// Reads a plan's text.
pub(crate) fn plan(text: &[u8]) -> Result<Plan, PlanReadError> {
    let mut lines = Lines {
        rest: text,
        read: 0,
    };
    lines.plan().ok_or(PlanReadError(lines.read + 1))
}
