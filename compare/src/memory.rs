//! The memory of a question: a form, a lent table and lent bytes in it, with a pattern in what is lent and around all, so
//! that it shows afterwards what was written.

use std::array;
use std::fmt;

use crate::rows::{EntryWords, RowEntry};

/// At least so many bytes stand before and after each part and must stay as they are.
const GUARD: usize = 32;

/// Each part starts at a multiple of this.
const ALIGNMENT: usize = 16;

/// The bytes of an entry of the table.
const ENTRY_BYTES: usize = size_of::<EntryWords>();

/// Where a part stands in the memory, in bytes.
#[derive(Clone, Copy, Debug, PartialEq, Eq)]
pub struct Part {
    pub start: usize,
    pub length: usize,
}

/// Not in the memory at all: a null pointer.
const NOWHERE: Part = Part { start: usize::MAX, length: 0 };

#[derive(Clone, Debug, PartialEq, Eq)]
pub struct Memory {
    bytes: Vec<u8>,
    form: Part,
    table: Part,
    out: Part,
}

impl Memory {
    /// A form and nothing lent. A form without bytes is nowhere.
    pub fn with_form(form: &[u8]) -> Memory {
        let mut memory = Memory { bytes: Vec::new(), form: NOWHERE, table: NOWHERE, out: NOWHERE };
        if !form.is_empty() {
            memory.form = memory.add(form.len());
            let Part { start, length } = memory.form;
            memory.bytes[start..start + length].copy_from_slice(form);
        }
        memory
    }

    pub fn lend_table(&mut self, entries: Option<usize>) {
        self.table = entries.map_or(NOWHERE, |entries| self.add(ENTRY_BYTES * entries));
    }

    pub fn lend_out(&mut self, bytes: Option<usize>) {
        self.out = bytes.map_or(NOWHERE, |bytes| self.add(bytes));
    }

    /// So many bytes more, with guards.
    fn add(&mut self, length: usize) -> Part {
        let start = (self.bytes.len() + GUARD).next_multiple_of(ALIGNMENT);
        let end = start + length + GUARD;
        self.bytes.extend((self.bytes.len()..end).map(|at| (at * 89 + 41) as u8));
        Part { start, length }
    }

    /// The form, the table and the lent bytes.
    pub fn parts(&self) -> [Part; 3] {
        [self.form, self.table, self.out]
    }

    pub fn bytes(&self) -> &[u8] {
        &self.bytes
    }

    pub fn bytes_mut(&mut self) -> &mut [u8] {
        &mut self.bytes
    }

    pub fn out(&self) -> &[u8] {
        self.part(self.out)
    }

    pub fn out_mut(&mut self) -> &mut [u8] {
        self.part_mut(self.out)
    }

    /// The entries of the table.
    pub fn entries(&self) -> Vec<RowEntry> {
        let word = |bytes: &[u8], at: usize| u64::from_le_bytes(bytes[8 * at..8 * (at + 1)].try_into().unwrap());
        self.part(self.table)
            .chunks_exact(ENTRY_BYTES)
            .map(|bytes| RowEntry::of_words(array::from_fn(|at| word(bytes, at))))
            .collect()
    }

    pub fn set_entries(&mut self, entries: &[RowEntry]) {
        let in_table = self.part_mut(self.table).chunks_exact_mut(ENTRY_BYTES);
        for (bytes, entry) in in_table.zip(entries) {
            bytes.copy_from_slice(entry.words().map(u64::to_le_bytes).as_flattened());
        }
    }

    fn part(&self, part: Part) -> &[u8] {
        if part == NOWHERE {
            return &[];
        }
        &self.bytes[part.start..part.start + part.length]
    }

    fn part_mut(&mut self, part: Part) -> &mut [u8] {
        if part == NOWHERE {
            return &mut [];
        }
        &mut self.bytes[part.start..part.start + part.length]
    }

    /// In which part the memories first differ, and where in it; what is in no part counts to the part before it.
    pub fn difference(&self, other: &Memory) -> Option<String> {
        let at = self.bytes.iter().zip(&other.bytes).position(|(one, other)| one != other)?;
        let named = [("form", self.form), ("table", self.table), ("lent bytes", self.out)];
        let within = named.iter().filter(|(_, part)| part.start <= at + GUARD).max_by_key(|(_, part)| part.start);
        Some(match within {
            Some((name, part)) => format!("byte {} of the {name}", at as i64 - part.start as i64),
            None => format!("byte {at} of the memory"),
        })
    }
}

impl fmt::Display for Memory {
    fn fmt(&self, to: &mut fmt::Formatter) -> fmt::Result {
        let [form, table, out] = self.parts().map(|part| match part {
            NOWHERE => "none".to_string(),
            Part { length, .. } => length.to_string(),
        });
        write!(to, "bytes of form {form}, table {table}, lent {out}")
    }
}
