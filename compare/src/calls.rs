//! The desk's calls on bytes: the answer, or the refusal in the document's order, and what lent memory then holds.
//!
//! A refusal changes no lent memory but what the document excepts (40 and 43 from the sweep). On success the bytes
//! past the written list or the two routes, and the rows past the last block, are unchanged.

use std::cell::OnceCell;

use crate::conflict::{conditions_conflict, conflict_list, list_bytes, Condition, Entry};
use crate::counter;
use crate::form::{self, Body, Refusal, HIGHEST_RELATION};
use crate::routes::{routes, walked, Routes};
use crate::rows::{swept, RowEntry, Swept, ROW_ENTRIES};
use crate::ways::ways_to_list;

/// More ways than this are not listed: the body is too large for this program, and it says so.
pub const MOST_WAYS: u64 = 1 << 20;

/// Why there is no answer: the document refuses, or the listing would take too long (which says nothing of the form).
#[derive(Clone, Copy, Debug, PartialEq, Eq)]
pub enum NoAnswer {
    Refused(Refusal),
    TooManyWays,
}

impl From<Refusal> for NoAnswer {
    fn from(refusal: Refusal) -> NoAnswer {
        NoAnswer::Refused(refusal)
    }
}

#[derive(Clone, Copy, Debug, PartialEq, Eq)]
pub struct WalkAnswer {
    pub count: u64,
    pub weight: u64,
    pub bound: u64,
    pub least: u64,
    pub least_total: u64,
    pub walked: u64,
}

#[derive(Clone, Copy, Debug, PartialEq, Eq)]
pub struct SweepAnswer {
    pub count: u64,
    pub weight: u64,
    pub bound: u64,
    pub least: u64,
    pub least_total: u64,
    pub kept: u64,
}

/// A form, with what has been found out about it. What takes listing is found when it is first asked for and then kept,
/// so that a form may be asked about with many budgets and much lent memory.
pub struct Listing {
    body: Result<Body, Refusal>,
    list: OnceCell<Vec<Entry>>,
    walked: OnceCell<u64>,
    routes: OnceCell<Option<Routes>>,
    swept: OnceCell<Swept>,
}

impl Listing {
    pub fn of(form: &[u8]) -> Listing {
        Listing {
            body: form::read(form),
            list: OnceCell::new(),
            walked: OnceCell::new(),
            routes: OnceCell::new(),
            swept: OnceCell::new(),
        }
    }

    /// The reader: 10 to 19.
    pub fn body(&self) -> Result<&Body, Refusal> {
        self.body.as_ref().map_err(|refusal| *refusal)
    }

    /// The form written back: the number of bytes written. 10 to 19, then 42.
    pub fn rewrite(&self, out: &mut [u8]) -> Result<usize, Refusal> {
        form::write(self.body()?, out)
    }

    /// The conflict list into `out`: the number of bytes written. 10 to 19, then 42.
    pub fn conflicts(&self, out: &mut [u8]) -> Result<usize, NoAnswer> {
        let bytes = list_bytes(self.list()?);
        refuse_short(42, out.len(), bytes.len())?;
        out[..bytes.len()].copy_from_slice(&bytes);
        Ok(bytes.len())
    }

    /// The full walk: 10 to 20, 42, 41, 43.
    pub fn walk(&self, budget: u32, out: &mut [u8]) -> Result<WalkAnswer, NoAnswer> {
        let body = self.body()?;
        let count = counter::count(&body.counter)?;
        refuse_short(42, out.len(), 2 * body.block_count)?;
        let walked = self.walked()?;
        if walked > budget as u64 {
            return Err(Refusal::new(41, budget as usize).into());
        }
        let (weight, least) = self.write_routes(out)?;
        Ok(WalkAnswer { count, weight, bound: count * weight, least, least_total: count * least, walked })
    }

    /// The sweep over a lent table: 10 to 20, 42, 44, 40, 43. At 40 the rows above the crowded block are complete and
    /// the others unchanged; at 43 all are complete.
    pub fn sweep(&self, table: &mut [RowEntry], out: &mut [u8]) -> Result<SweepAnswer, NoAnswer> {
        let body = self.body()?;
        let count = counter::count(&body.counter)?;
        refuse_short(42, out.len(), 2 * body.block_count)?;
        refuse_short(44, table.len(), ROW_ENTRIES * body.block_count)?;
        let swept = self.swept()?;
        for (block, entries) in &swept.rows {
            let in_table = &mut table[ROW_ENTRIES * block..ROW_ENTRIES * (block + 1)];
            in_table.fill(RowEntry::default());
            in_table[..entries.len()].copy_from_slice(entries);
        }
        if let Some(block) = swept.crowded {
            return Err(Refusal::new(40, block).into());
        }
        let (weight, least) = self.write_routes(out)?;
        let kept = swept.rows.iter().map(|(_, entries)| entries.len() as u64).max().unwrap();
        Ok(SweepAnswer { count, weight, bound: count * weight, least, least_total: count * least, kept })
    }

    pub fn list(&self) -> Result<&Vec<Entry>, NoAnswer> {
        let body = self.body_to_list()?;
        Ok(self.list.get_or_init(|| conflict_list(body)))
    }

    pub fn walked(&self) -> Result<u64, NoAnswer> {
        let body = self.body_to_list()?;
        Ok(*self.walked.get_or_init(|| walked(body)))
    }

    fn swept(&self) -> Result<&Swept, NoAnswer> {
        let (body, list) = (self.body_to_list()?, self.list()?);
        Ok(self.swept.get_or_init(|| swept(body, list)))
    }

    /// The bytes of both routes into `out`; what the heaviest and the lightest weigh.
    fn write_routes(&self, out: &mut [u8]) -> Result<(u64, u64), NoAnswer> {
        let body = self.body_to_list()?;
        let routes = self.routes.get_or_init(|| routes(body)).as_ref().ok_or(Refusal::new(43, 0))?;
        out[..2 * body.block_count].copy_from_slice(&routes.bytes(body));
        Ok((routes.heaviest.weight, routes.lightest.weight))
    }

    /// The body, if its ways are few enough to be listed.
    fn body_to_list(&self) -> Result<&Body, NoAnswer> {
        let body = self.body()?;
        if ways_to_list(body) > MOST_WAYS {
            return Err(NoAnswer::TooManyWays);
        }
        Ok(body)
    }
}

fn refuse_short(number: u32, lent: usize, needed: usize) -> Result<(), Refusal> {
    if lent < needed {
        return Err(Refusal::new(number, needed));
    }
    Ok(())
}

pub fn conflicts(form: &[u8], out: &mut [u8]) -> Result<usize, NoAnswer> {
    Listing::of(form).conflicts(out)
}

pub fn walk(form: &[u8], budget: u32, out: &mut [u8]) -> Result<WalkAnswer, NoAnswer> {
    Listing::of(form).walk(budget, out)
}

pub fn sweep(form: &[u8], table: &mut [RowEntry], out: &mut [u8]) -> Result<SweepAnswer, NoAnswer> {
    Listing::of(form).sweep(table, out)
}

/// Do two conditions on one variable conflict? A relation above 5 is met by no number.
pub fn pair(relation1: u8, constant1: i32, relation2: u8, constant2: i32) -> bool {
    let one = Condition { variable: 0, relation: relation1, constant: constant1 };
    let other = Condition { variable: 0, relation: relation2, constant: constant2 };
    relation1.max(relation2) > HIGHEST_RELATION || conditions_conflict(&one, &other)
}
