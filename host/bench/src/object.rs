//! How long the functions of a library are. Of its archive and of the ELF object in it, with
//! 64 bits and the low byte first, as much is read as that takes.

use std::collections::BTreeSet;

/// The object of a library: its sections, and the functions that it exports, by name.
pub struct Object {
    sections: Vec<Section>,
    pub functions: Vec<Function>,
}

pub struct Function {
    pub name: String,
    pub bytes: usize,
    section: usize,
}

struct Section {
    holds: Holds,
    bytes: usize,
    /// The sections that it refers to.
    uses: Vec<usize>,
}

#[derive(Clone, Copy, PartialEq, Eq)]
enum Holds {
    Code,
    Data,
    /// What no program is loaded with.
    Notes,
}

impl Object {
    /// The first object in an archive; none if it has none.
    pub fn of_archive(archive: &[u8]) -> Option<Object> {
        let mut rest = archive.strip_prefix(b"!<arch>\n")?;
        loop {
            // A header of 60 bytes, the size in decimal at byte 48, then so many bytes, made even.
            let size = std::str::from_utf8(rest.get(48..58)?).ok()?.trim_end().parse::<usize>().ok()?;
            let member = rest.get(60..60_usize.checked_add(size)?)?;
            if member.starts_with(b"\x7fELF\x02\x01") {
                return Bytes(member).object();
            }
            rest = rest.get(60 + size + size % 2..)?;
        }
    }

    pub fn code(&self) -> usize {
        self.sum(Holds::Code, 0..self.sections.len())
    }

    /// What is loaded beside the code.
    pub fn data(&self) -> usize {
        self.sum(Holds::Data, 0..self.sections.len())
    }

    /// A function's code and all that it calls inside the library.
    pub fn code_of(&self, function: &Function) -> usize {
        let mut reached = BTreeSet::new();
        let mut left = vec![function.section];
        while let Some(section) = left.pop() {
            if reached.insert(section) {
                left.extend(&self.sections[section].uses);
            }
        }
        self.sum(Holds::Code, reached)
    }

    fn sum(&self, holds: Holds, sections: impl IntoIterator<Item = usize>) -> usize {
        let sections = sections.into_iter().map(|k| &self.sections[k]);
        sections.filter(|section| section.holds == holds).map(|section| section.bytes).sum()
    }
}

/// The bytes of an object, or of a part of it.
#[derive(Clone, Copy)]
struct Bytes<'a>(&'a [u8]);

/// Kinds of sections: the symbols, and the references of another section to some of them.
const SYMBOLS: usize = 2;
const REFERENCES: usize = 4;

/// The bytes of a symbol, and of a reference.
const ENTRY: usize = 24;

/// A symbol that others see and that is a function.
const EXPORTED_FUNCTION: usize = 0x12;

impl<'a> Bytes<'a> {
    fn number(self, at: usize, bytes: usize) -> Option<usize> {
        let number = self.part(at, bytes)?.0.iter().rev().fold(0, |high, &low| high << 8 | u64::from(low));
        usize::try_from(number).ok()
    }

    fn part(self, at: usize, bytes: usize) -> Option<Bytes<'a>> {
        self.0.get(at..at.checked_add(bytes)?).map(Bytes)
    }

    /// The text up to the next zero.
    fn text(self, at: usize) -> Option<String> {
        let text = self.0.get(at..)?.split(|&byte| byte == 0).next()?;
        String::from_utf8(text.to_vec()).ok()
    }

    /// The header of a section.
    fn header(self, section: usize) -> Option<Bytes<'a>> {
        self.part(self.number(40, 8)?.checked_add(64 * section)?, 64)
    }

    /// What stands in a section, by its header.
    fn contents(self, header: Bytes) -> Option<Bytes<'a>> {
        self.part(header.number(24, 8)?, header.number(32, 8)?)
    }

    fn object(self) -> Option<Object> {
        let headers: Vec<Bytes> = (0..self.number(60, 2)?).map(|k| self.header(k)).collect::<Option<_>>()?;
        let mut sections = headers.iter().map(|header| header.section()).collect::<Option<Vec<_>>>()?;
        let mut functions = Vec::new();
        for header in &headers {
            match header.number(4, 4)? {
                SYMBOLS => functions.extend(self.functions(*header)?),
                REFERENCES => sections.get_mut(header.number(44, 4)?)?.uses = self.uses(*header)?,
                _ => {}
            }
        }
        if functions.iter().any(|function| function.section >= sections.len()) {
            return None;
        }
        functions.sort_by(|a, b| a.name.cmp(&b.name));
        Some(Object { sections, functions })
    }

    /// A section, by its header, but for what it uses.
    fn section(self) -> Option<Section> {
        let flags = self.number(8, 8)?;
        let holds = match (flags & 2 != 0, flags & 4 != 0) {
            (true, true) => Holds::Code,
            (true, false) => Holds::Data,
            (false, _) => Holds::Notes,
        };
        Some(Section { holds, bytes: self.number(32, 8)?, uses: Vec::new() })
    }

    /// The exported functions among the symbols of a section.
    fn functions(self, header: Bytes) -> Option<Vec<Function>> {
        let names = self.contents(self.header(header.number(40, 4)?)?)?;
        let symbols = self.contents(header)?.0.chunks_exact(ENTRY).map(Bytes);
        let exported = symbols.filter(|symbol| symbol.number(4, 1) == Some(EXPORTED_FUNCTION));
        exported
            .map(|symbol| {
                let (name, section) = (names.text(symbol.number(0, 4)?)?, symbol.number(6, 2)?);
                Some(Function { name, bytes: symbol.number(16, 8)?, section })
            })
            .collect()
    }

    /// The sections whose symbols are referred to. What stands in none, as memcpy does, is
    /// left out.
    fn uses(self, header: Bytes) -> Option<Vec<usize>> {
        let symbols = self.contents(self.header(header.number(40, 4)?)?)?;
        let references = self.contents(header)?.0.chunks_exact(ENTRY).map(Bytes);
        let mut uses = Vec::new();
        for reference in references {
            let symbol = symbols.part(ENTRY.checked_mul(reference.number(12, 4)?)?, ENTRY)?;
            uses.push(symbol.number(6, 2)?);
        }
        uses.retain(|&section| section != 0 && section < self.number(60, 2).unwrap_or(0));
        Some(uses)
    }
}
