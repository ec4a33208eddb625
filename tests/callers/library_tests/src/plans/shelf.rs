// A made-up shelf of posting lists, and values that are always the same. Plain data for tests.
// What must not be here: entries.

use search_plans::{PostingLists, NumberSet, Posting, Range, Truth, Values};
use std::alloc::{AllocError, Global};
use std::marker::Model;

/// The even numbers for each type, and the multiples of three for each value, each run and each range.
#[derive(Drop)]
pub struct Shelf {
    alloc: Global,
    even: NumberSet,
    three: NumberSet,
}

impl Model for Shelf {
    ghost use Rattle.library_tests.specs.Shelf.{TwoLists};

    ghost Value = { TwoLists };

    ghost view = { λ s. record { even = s.even; three = s.three } };
}

impl PostingLists for Shelf {
    ghost use Rattle.library_tests.specs.Shelf.{lists_of_shelf};

    ghost lists = { lists_of_shelf };

    fn numbers(&self, posting: &Posting) -> &NumberSet {
        match posting {
            Posting::Present(_) => &self.even,
            Posting::Several(_) => &self.even,
            Posting::Equal(_, _) => &self.three,
            Posting::Run(_, _) => &self.three,
        }
    }

    fn numbers_of_each(&self, postings: &[&Posting]) -> Result<Vec<&NumberSet>, AllocError> {
        let mut sets = Vec::with_capacity(self.alloc, postings.len())?;
        for posting in postings {
            sets.push(self.numbers(posting))?;
        }
        Ok(sets)
    }

    fn in_range(&self, _range: &Range, number: u64) -> bool {
        self.three.contains(number)
    }

    /// The numbers twice, and not in order.
    fn push_range(&self, _range: &Range, into: &mut Vec<u64>) -> Result<(), AllocError> {
        into.push(6)?;
        into.push(3)?;
        into.push(6)?;
        Ok(())
    }

    fn about(&self, _range: &Range) -> usize {
        3
    }
}

/// The set of these numbers.
pub fn set_of(alloc: Global, numbers: &[u64]) -> Result<NumberSet, AllocError> {
    let mut set = NumberSet::new();
    for number in numbers {
        set = set.with(alloc, *number)?;
    }
    Ok(set)
}

/// The even numbers and the multiples of three up to six.
pub fn make_shelf(alloc: Global) -> Result<Shelf, AllocError> {
    Ok(Shelf {
        alloc,
        even: set_of(alloc, &[2, 4, 6])?,
        three: set_of(alloc, &[3, 6])?,
    })
}

/// Some numbers.
pub fn make_scope(alloc: Global) -> Result<NumberSet, AllocError> {
    set_of(alloc, &[1, 2, 3, 4, 6])
}

/// One value for every number.
#[derive(Drop)]
pub struct Always {
    pub truth: Truth,
    pub looks: u64,
}

impl Values for Always {
    ghost value_at = { λ a n. a.truth };

    ghost looks = { λ a. a.looks };

    fn expect(&mut self, _numbers: &[u64]) {}

    fn value(&mut self, _number: u64) -> Truth {
        self.looks += 1;
        self.truth
    }
}
