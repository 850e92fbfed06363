//! The page on the method: what it cites is there, as is what the statements cite, and the crates' remarks cite it and nothing else.

use outside_checks::statements::citations::{
    broken_citations, citations, remark_complaint, remark_complaints, sections, METHOD,
};
use outside_checks::statements::{repository, PAGE};
use std::fs;

fn page() -> String {
    let path = repository().join(METHOD);
    fs::read_to_string(path).unwrap_or_else(|error| panic!("{METHOD}: {error}"))
}

#[test]
fn every_cited_theorem_is_there() {
    let statements = fs::read_to_string(repository().join(PAGE)).expect("the page of statements");
    for text in [page(), statements] {
        let broken = broken_citations(&repository(), &text);
        assert!(broken.is_empty(), "{}", broken.join("\n"));
        assert!(!citations(&text).is_empty());
    }
}

#[test]
fn every_section_cites_a_theorem() {
    let text = page();
    let numbers = sections(&text);
    let counted: Vec<String> = (1..=numbers.len())
        .map(|number| number.to_string())
        .collect();
    assert!(numbers == counted && counted.len() >= 5, "{numbers:?}");
    for section in text.split("\n## ").skip(1) {
        let heading = section.lines().next().unwrap_or("");
        assert!(!citations(section).is_empty(), "{heading} cites nothing");
    }
}

/// Whichever citation is spoilt, in its crate, its file or its name, it is reported.
#[test]
fn a_citation_that_leads_nowhere_is_reported() {
    let all = citations(&page());
    assert!(all.len() >= 20, "{all:?}");
    for citation in &all {
        let (file, name) = citation.split_once('.').expect("a name");
        for other in [
            format!("no_{citation}"),
            format!("{file}None.{name}"),
            format!("{citation}-none"),
        ] {
            let text = page().replace(&format!("`{citation}`"), &format!("`{other}`"));
            let broken = broken_citations(&repository(), &text);
            let reported = broken
                .iter()
                .any(|each| each.starts_with(&format!("`{other}`:")));
            assert!(reported, "{other}");
        }
    }
}

#[test]
fn remarks_cite_this_page_and_no_other_document() {
    let found = remark_complaints(&repository(), "crates", &sections(&page()));
    assert!(found.is_empty(), "{}", found.join("\n"));
}

#[test]
fn a_remark_that_cites_otherwise_is_reported() {
    let sections = sections(&page());
    let complaint = |remark: &str| remark_complaint(remark, &sections);
    for good in [
        "-- two pairs of polynomials",
        "-- docs/METHOD.md, section 1: two pairs",
        "// docs/METHOD.md: the outputs",
        "-- section 99 of another page",
    ] {
        assert_eq!(complaint(good), None, "{good}");
    }
    for bad in [
        "-- METHOD.md, section 1: two pairs",
        "// METHOD: the outputs",
        "-- docs/METHOD.md, and METHOD's table",
        "-- docs/METHOD.md, section 99",
    ] {
        assert!(complaint(bad).is_some(), "{bad}");
    }
}
