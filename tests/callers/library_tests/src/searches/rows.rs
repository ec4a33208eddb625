//! Worked rows of searches by plans, over the sample, with indexes and without. Expectations are worked out by hand from the standard. Code
//! that searches is not here.
use crate::searches::asking::{Row, Rows, check};
use dir_search::ResultCode;
use std::test::*;

/// Some indexes of some types.
const SOME: &str = "label: pres eq\nticket: pres eq\ncn: eq sub\nrank: eq ord\n";

/// With those: what is found, and the most entries that are evaluated.
const INDEXED: Rows = Rows {
    limit: 0,
    code: ResultCode::SUCCESS,
    rows: &[
        Row("(label=abc)", &["cn=Ana"], 0),
        Row("(!(label=abc))", &["cn=Anna", "cn=An Na"], 0),
        Row("(rank>=10)", &["cn=Anna", "cn=An Na"], 0),
        Row("(&(label=abc)(nosuch=1))", &[], 0),
        Row("(label>=abc)", &["cn=Ana", "cn=Anna"], 4),
        Row("(cn=*nan*)", &["cn=Anana"], 1),
        Row("(cn=ana*)", &["cn=Ana", "cn=Anana"], 2),
        Row("(&(rank>=10)(cn=*n*))", &["cn=Anna", "cn=An Na"], 2),
    ],
};

/// A size limit of two: one more entry is found, and no further one is evaluated.
const LIMITED: Rows = Rows {
    limit: 2,
    code: ResultCode::SIZE_LIMIT_EXCEEDED,
    rows: &[Row("(cn=*n*)", &["cn=Ana", "cn=Anna"], 3)],
};

/// The same once an item has a label and a ticket.
const LATER: Rows = Rows {
    limit: 0,
    code: ResultCode::SUCCESS,
    rows: &[
        Row("(!(label=abc))", &["cn=Anna", "cn=An Na"], 0),
        Row("(label=7)", &["cn=Anana", "cn=Two"], 0),
    ],
};

#[test]
fn searches_by_some_indexes(rt: HostRuntime) -> Result<(), Fail> {
    check(&rt, rt.alloc(), SOME, &[INDEXED, LIMITED], &[LATER])
}

/// Every index that the types of the sample's attributes have rules for.
const EVERY: &str =
    "objectClass: pres eq\ndc: pres eq sub\nou: pres eq sub\ncn: pres eq sub\ndescription: pres eq sub\nlabel: pres eq ord sub\nticket: pres eq\nrank: pres eq ord\n";

/// Whatever is indexed.
const ROWS: Rows = Rows {
    limit: 0,
    code: ResultCode::SUCCESS,
    rows: &[
        Row("(!(label=abc))", &["cn=Anna", "cn=An Na"], 4),
        Row("(!(!(label=abc)))", &["cn=Ana"], 4),
        Row("(|(label=abc)(nosuch=1))", &["cn=Ana"], 4),
        Row("(name=ana)", &["cn=Ana"], 4),
        Row("(&(label=abc)(nosuch=1))", &[], 4),
        Row("(|)", &[], 4),
        Row("(cn=)", &[], 4),
        Row("(!(cn=))", &[], 4),
        Row("(!(rank=09))", &[], 4),
        Row("(!(ticket=abc))", &[], 4),
        Row(
            "(!(&(nosuch=1)(cn=Ana)))",
            &["cn=Anna", "cn=Anana", "cn=An Na"],
            4,
        ),
        Row("(&)", &["cn=Ana", "cn=Anna", "cn=Anana", "cn=An Na"], 4),
        Row("(rank>=10)", &["cn=Anna", "cn=An Na"], 4),
        Row("(rank<=9)", &["cn=Ana", "cn=Anana"], 4),
        Row("(label>=abc)", &["cn=Ana", "cn=Anna"], 4),
        Row("(label=7)", &["cn=Anana"], 4),
        Row("(cn=*an*na*)", &["cn=Anna", "cn=Anana", "cn=An Na"], 4),
        Row("(cn=an   NA)", &["cn=An Na"], 4),
    ],
};

#[test]
fn searches_by_every_index(rt: HostRuntime) -> Result<(), Fail> {
    check(&rt, rt.alloc(), EVERY, &[ROWS], &[])
}

#[test]
fn searches_without_indexes(rt: HostRuntime) -> Result<(), Fail> {
    check(&rt, rt.alloc(), "", &[ROWS], &[])
}
