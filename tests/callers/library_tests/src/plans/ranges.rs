// Two bounds on one type over made-up entries: what a run finds, against the filter on each entry.
// What must not be here: expected values that plans gave.

use crate::plans::shelf::set_of;
use schema_reader::built_in_schema;
use search_plans::{
    BoundFilter, Indexes, PostingLists, Key, Leaf, NumberSet, Posting, Range, Scope, Test, Truth, TypeId,
    Values, compile, run,
};
use std::alloc::{AllocError, Global};
use std::process::Abort;
use std::test::Fail;

/// Entries with one value of a type each, and some with two, an octet each; and which these are.
#[derive(Drop)]
struct Entries {
    alloc: Global,
    values: Vec<(u8, u8)>,
    several: NumberSet,
    none: NumberSet,
}

/// How many entries there are.
const COUNT: u64 = 600;

/// Values that are spread over all octets, a second one at each fiftieth entry.
fn make_entries(alloc: Global) -> Result<Entries, AllocError> {
    let mut values = Vec::new(alloc);
    let mut several = set_of(alloc, &[])?;
    for number in 0..COUNT {
        let first = (number * 37 % 256) as u8;
        let second = (number * 91 % 256) as u8;
        if number % 50 == 0 && first != second {
            several = several.with(alloc, number)?;
            values.push((first, second))?;
        } else {
            values.push((first, first))?;
        }
    }
    Ok(Entries {
        alloc,
        values,
        several,
        none: set_of(alloc, &[])?,
    })
}

/// Whether the key of a value stands in a range.
fn is_in(range: &Range, value: u8) -> bool {
    let octets = [value];
    let from = match &range.from {
        Some(key) => key.as_octets() <= octets.as_slice(),
        None => true,
    };
    let upto = match &range.upto {
        Some(key) => octets.as_slice() <= key.as_octets(),
        None => true,
    };
    from && upto
}

impl PostingLists for Entries {
    ghost use Rattle.library_tests.specs.Shelf.{no_lists};

    ghost lists = { λ e. no_lists };

    fn numbers(&self, posting: &Posting) -> &NumberSet {
        match posting {
            Posting::Several(_) => &self.several,
            _ => &self.none,
        }
    }

    fn numbers_of_each(&self, postings: &[&Posting]) -> Result<Vec<&NumberSet>, AllocError> {
        let mut sets = Vec::with_capacity(self.alloc, postings.len())?;
        for posting in postings {
            sets.push(self.numbers(posting))?;
        }
        Ok(sets)
    }

    fn in_range(&self, range: &Range, number: u64) -> bool {
        let (first, second) = self.values[number as usize];
        is_in(range, first) || is_in(range, second)
    }

    fn push_range(&self, range: &Range, into: &mut Vec<u64>) -> Result<(), AllocError> {
        for octet in 0..256 {
            for (i, (first, second)) in self.values.iter().enumerate() {
                let value = octet as u8;
                if is_in(range, value) && (*first == value || *second == value) {
                    into.push(i as u64)?;
                }
            }
        }
        Ok(())
    }

    fn about(&self, range: &Range) -> usize {
        let mut count = 0;
        for (first, second) in &self.values {
            if is_in(range, *first) || is_in(range, *second) {
                count += 1;
            }
        }
        count
    }
}

/// The filter `(&(rank>=LEAST)(rank<=MOST))` on each of the entries.
struct Bounds<'a> {
    entries: &'a Entries,
    least: u8,
    most: u8,
    looks: u64,
}

impl Drop for Bounds<'_> {
    fn drop(self) {
        let Bounds {
            entries: _,
            least: _,
            most: _,
            looks: _,
        } = self;
    }
}

/// Whether an entry has a value from the one bound on and a value up to the other.
fn matches(entries: &Entries, number: u64, least: u8, most: u8) -> bool {
    let (first, second) = entries.values[number as usize];
    (first >= least || second >= least) && (first <= most || second <= most)
}

impl Values for Bounds<'_> {
    ghost value_at = { λ b n. Truth.False };

    ghost looks = { λ b. b.looks };

    fn expect(&mut self, _numbers: &[u64]) {}

    fn value(&mut self, number: u64) -> Truth {
        self.looks += 1;
        if matches(self.entries, number, self.least, self.most) {
            Truth::True
        } else {
            Truth::False
        }
    }
}

/// An item on one type, as a bound filter has it.
fn item(alloc: Global, type_id: TypeId, test: Test) -> Result<BoundFilter, AllocError> {
    let mut leaves = Vec::new(alloc);
    leaves.push(BoundFilter::Leaf(Leaf { type_id, test }))?;
    Ok(BoundFilter::Or(leaves))
}

fn key(alloc: Global, value: u8) -> Result<Key, AllocError> {
    Ok(Key::new(Vec::from_slice(alloc, &[value])?))
}

/// The numbers that a run by two bounds finds, and those that the filter is true on.
fn found(
    rt: &impl Abort,
    alloc: Global,
    entries: &Entries,
    least: u8,
    most: u8,
) -> Result<(Vec<u64>, Vec<u64>), Fail> {
    let schema = built_in_schema(alloc)?;
    let Ok(indexes) = Indexes::read(alloc, &schema, "rank: eq ord\n") else {
        panic!(rt; "no index choice");
    };
    let Some(type_id) = schema.find("rank") else {
        panic!(rt; "no type");
    };
    let mut parts = Vec::new(alloc);
    parts.push(item(alloc, type_id, Test::AtLeast(key(alloc, least)?))?)?;
    parts.push(item(alloc, type_id, Test::AtMost(key(alloc, most)?))?)?;
    let sided = compile(alloc, &BoundFilter::And(parts), &indexes)?;
    let mut expected = Vec::new(alloc);
    let mut all = set_of(alloc, &[])?;
    for number in 0..COUNT {
        all = all.with(alloc, number)?;
        if matches(entries, number, least, most) {
            expected.push(number)?;
        }
    }
    let values = Bounds {
        entries,
        least,
        most,
        looks: 0,
    };
    let ran = run(alloc, &sided, entries, &Scope::of_set(&all), values)?;
    assert_eq!(rt; ran.tests, 0);
    Ok((ran.numbers, expected))
}

#[test]
fn two_bounds_find_what_lies_between(rt: HostRuntime) -> Result<(), Fail> {
    let alloc = rt.alloc();
    let entries = make_entries(alloc)?;
    for (least, most) in [(7, 9), (100, 100), (0, 255), (200, 20), (250, 255)] {
        let (numbers, expected) = found(&rt, alloc, &entries, least, most)?;
        assert_eq!(rt; numbers.as_slice(), expected.as_slice());
    }
    Ok(())
}
