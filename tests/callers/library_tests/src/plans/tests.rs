// Rows: plans, filters and runs over the shelf, against lists and counts by hand.
// What must not be here: expected values that the program gave.

use crate::plans::shelf::{Always, Shelf, make_scope, make_shelf};
use search_plans::{
    BoundFilter, Indexes, Key, Leaf, Plan, Posting, Ran, Range, Scope, Sided, Test, Truth, TypeId,
    compile, contains, run, start,
};
use std::alloc::{AllocError, Global};
use std::process::Abort;
use std::test::Fail;

/// The numbers of the scope that are in the plan's set.
fn members(
    alloc: Global,
    plan: &Plan,
    shelf: &Shelf,
    scope: &Scope,
) -> Result<Vec<u64>, AllocError> {
    let mut members = Vec::new(alloc);
    for number in 0..8 {
        if scope.has(number) && contains(plan, shelf, scope, number) {
            members.push(number)?;
        }
    }
    Ok(members)
}

/// How many values a run asks for, where the plan has all that may be, nothing must be, and no value is True.
fn asked(alloc: Global, plan: Plan, shelf: &Shelf, scope: &Scope) -> Result<u64, AllocError> {
    let sided = Sided {
        must: Plan::Empty,
        may: plan,
    };
    let values = Always {
        truth: Truth::False,
        looks: 0,
    };
    let ran = run(alloc, &sided, shelf, scope, values)?;
    Ok(ran.tests)
}

fn even() -> Plan {
    Plan::Posting(Posting::Present(TypeId::new(0)))
}

fn three(alloc: Global) -> Plan {
    Plan::Posting(Posting::Equal(TypeId::new(0), Key::new(Vec::new(alloc))))
}

/// A plan's members, and how many of them a run asks for.
fn seen(alloc: Global, plan: Plan) -> Result<(Vec<u64>, u64), AllocError> {
    let shelf = make_shelf(alloc)?;
    let numbers = make_scope(alloc)?;
    let scope = Scope::of_set(&numbers);
    let members = members(alloc, &plan, &shelf, &scope)?;
    let asked = asked(alloc, plan, &shelf, &scope)?;
    Ok((members, asked))
}

fn check_plan(rt: &impl Abort, alloc: Global, plan: Plan, expected: &[u64]) -> Result<(), Fail> {
    let (members, asked) = seen(alloc, plan)?;
    assert_eq!(rt; members.as_slice(), expected);
    assert_eq!(rt; asked, expected.len() as u64);
    Ok(())
}

fn both(alloc: Global) -> Result<Vec<Plan>, AllocError> {
    let mut plans = Vec::new(alloc);
    plans.push(even())?;
    plans.push(three(alloc))?;
    Ok(plans)
}

fn odd(alloc: Global) -> Result<Plan, AllocError> {
    let scope = Box::new(alloc, Plan::Scope)?;
    Ok(Plan::Minus(scope, Box::new(alloc, even())?))
}

fn whole_range() -> Plan {
    Plan::Range(Range {
        type_id: TypeId::new(0),
        from: None,
        upto: None,
    })
}

#[test]
fn plans_have_their_numbers(rt: HostRuntime) -> Result<(), Fail> {
    let a = rt.alloc();
    check_plan(&rt, a, Plan::Empty, &[])?;
    check_plan(&rt, a, Plan::Scope, &[1, 2, 3, 4, 6])?;
    check_plan(&rt, a, even(), &[2, 4, 6])?;
    check_plan(&rt, a, whole_range(), &[3, 6])?;
    check_plan(&rt, a, Plan::Union(both(a)?), &[2, 3, 4, 6])?;
    check_plan(&rt, a, Plan::Inter(both(a)?), &[6])?;
    check_plan(&rt, a, odd(a)?, &[1, 3])?;
    check_plan(&rt, a, Plan::Union(Vec::new(a)), &[])?;
    check_plan(&rt, a, Plan::Inter(Vec::new(a)), &[1, 2, 3, 4, 6])
}

/// The members of what is sure and of what may be of a filter for which there is no index.
fn compiled(alloc: Global, filter: &BoundFilter) -> Result<(Vec<u64>, Vec<u64>), AllocError> {
    let shelf = make_shelf(alloc)?;
    let numbers = make_scope(alloc)?;
    let scope = Scope::of_set(&numbers);
    let sided = compile(alloc, filter, &Indexes::none(alloc))?;
    let must = members(alloc, &sided.must, &shelf, &scope)?;
    let may = members(alloc, &sided.may, &shelf, &scope)?;
    Ok((must, may))
}

fn check_filter(
    rt: &impl Abort,
    alloc: Global,
    filter: BoundFilter,
    must: &[u64],
    may: &[u64],
) -> Result<(), Fail> {
    let (sure, possible) = compiled(alloc, &filter)?;
    assert_eq!(rt; sure.as_slice(), must);
    assert_eq!(rt; possible.as_slice(), may);
    Ok(())
}

fn leaf(test: Test) -> BoundFilter {
    BoundFilter::Leaf(Leaf {
        type_id: TypeId::new(0),
        test,
    })
}

fn not(alloc: Global, filter: BoundFilter) -> Result<BoundFilter, AllocError> {
    Ok(BoundFilter::Not(Box::new(alloc, filter)?))
}

#[test]
fn filters_without_indexes(rt: HostRuntime) -> Result<(), Fail> {
    let a = rt.alloc();
    let all = [1, 2, 3, 4, 6];
    check_filter(&rt, a, BoundFilter::Undefined, &[], &[])?;
    check_filter(&rt, a, BoundFilter::And(Vec::new(a)), &all, &all)?;
    check_filter(&rt, a, BoundFilter::Or(Vec::new(a)), &[], &[])?;
    check_filter(&rt, a, leaf(Test::Present), &[], &all)?;
    check_filter(&rt, a, leaf(Test::Unknown), &[], &[])
}

#[test]
fn negations_without_indexes(rt: HostRuntime) -> Result<(), Fail> {
    let a = rt.alloc();
    let all = [1, 2, 3, 4, 6];
    check_filter(&rt, a, not(a, BoundFilter::Undefined)?, &[], &[])?;
    check_filter(&rt, a, not(a, BoundFilter::Or(Vec::new(a)))?, &all, &all)?;
    check_filter(&rt, a, not(a, leaf(Test::Unknown))?, &[], &all)
}

/// A run where every value is True, with what must be as it is given and all that is in scope possible.
fn whole(alloc: Global, must: Plan) -> Result<Ran<Always>, AllocError> {
    let shelf = make_shelf(alloc)?;
    let numbers = make_scope(alloc)?;
    let scope = Scope::of_set(&numbers);
    let sided = Sided {
        must,
        may: Plan::Scope,
    };
    let values = Always {
        truth: Truth::True,
        looks: 7,
    };
    run(alloc, &sided, &shelf, &scope, values)
}

fn check_run(rt: &impl Abort, alloc: Global, must: Plan, tests: u64) -> Result<(), Fail> {
    let ran = whole(alloc, must)?;
    assert_eq!(rt; ran.numbers.as_slice(), [1, 2, 3, 4, 6].as_slice());
    assert_eq!(rt; ran.tests, tests);
    assert_eq!(rt; ran.values.looks.checked_sub(7), Some(tests));
    Ok(())
}

#[test]
fn runs_ask_for_what_is_left_open(rt: HostRuntime) -> Result<(), Fail> {
    let a = rt.alloc();
    check_run(&rt, a, Plan::Empty, 5)?;
    check_run(&rt, a, even(), 2)?;
    check_run(&rt, a, Plan::Scope, 0)
}

#[test]
fn a_run_gives_one_number_a_call(rt: HostRuntime) -> Result<(), Fail> {
    let a = rt.alloc();
    let shelf = make_shelf(a)?;
    let numbers = make_scope(a)?;
    let scope = Scope::of_set(&numbers);
    let sided = Sided {
        must: even(),
        may: Plan::Scope,
    };
    let values = Always {
        truth: Truth::True,
        looks: 0,
    };
    let mut running = start(a, &sided, &shelf, &scope, values)?;
    assert_eq!(rt; running.next(), Some(1));
    assert_eq!(rt; running.tests(), 1);
    assert_eq!(rt; running.next(), Some(2));
    assert_eq!(rt; running.tests(), 1);
    Ok(())
}
