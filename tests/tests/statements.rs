//! The page of statements: as the files have it, and complete.

use outside_checks::crates::Crates;
use outside_checks::statements::page::Page;
use outside_checks::statements::walk::Walk;
use outside_checks::statements::{antt, beyond_need, complaints, repository, source, PAGE, ROOTS};
use std::fs;

fn page() -> String {
    let path = repository().join(PAGE);
    fs::read_to_string(path).unwrap_or_else(|error| panic!("{PAGE}: {error}"))
}

fn found(text: &str) -> Vec<String> {
    complaints(&repository(), text)
}

/// The page with one piece of its text replaced, which must be there once at least.
fn changed(old: &str, new: &str) -> String {
    let text = page();
    assert!(text.contains(old), "the page has no `{old}`");
    text.replacen(old, new, 1)
}

/// Every definition on the page: its file, its name, its text.
fn definitions() -> Vec<(String, String, String)> {
    let text = page();
    let mut all = Vec::new();
    for block in Page::parse(&text).blocks {
        let file = block.file.expect("a file");
        let items = block.items.into_iter();
        all.extend(items.map(|item| (file.clone(), item.name, item.text)));
    }
    all
}

#[test]
fn the_page_is_as_the_files_have_it_and_complete() {
    let found = found(&page());
    let help = "`cargo run --offline --release --no-default-features --bin statements` shows what to put in, with `--write` it refreshes what is there";
    assert!(found.is_empty(), "{}\n{help}", found.join("\n"));
}

#[test]
fn every_contract_stands_on_the_page() {
    for (name, function) in ROOTS {
        let file = format!("crates/{name}/src/");
        let all = definitions();
        let contract = all
            .iter()
            .find(|each| each.0.starts_with(&file) && each.1 == function);
        let (_, _, text) = contract.unwrap_or_else(|| panic!("{function} is not on the page"));
        assert!(text.contains("ensures"), "{text}");
    }
}

/// The crates that compute an answer: how is no part of what is promised.
const METHOD: [&str; 11] = [
    "reciprocal",
    "euclid",
    "fraction",
    "montgomery",
    "lanes",
    "evaluation",
    "pairs",
    "interpolation",
    "candidate",
    "solver",
    "reduced",
];

/// Of a crate that is no longer there no definition would be found.
#[test]
fn the_crates_of_the_method_are_there() {
    let crates = Crates::of_repository();
    assert_eq!(crates.unlisted(&METHOD), Vec::<&str>::new());
    assert_eq!(crates.unlisted(&["solver", "no_crate"]), ["no_crate"]);
}

/// The definitions of the method that these contracts rest on.
fn method_below(contracts: &[(&str, &str)]) -> Vec<String> {
    let walk = Walk::from_contracts(&repository(), contracts);
    assert!(walk.definitions.len() > contracts.len());
    let of_method = |file: &str| {
        METHOD
            .iter()
            .any(|name| file.starts_with(&format!("crates/{name}/")))
    };
    let places = walk.definitions.into_keys();
    places
        .filter(|(file, _)| of_method(file))
        .map(|(file, name)| format!("{file}: `{name}`"))
        .collect()
}

/// Among the contracts only those for reciprocals speak of them, so that no demand can change with what a reciprocal is.
#[test]
fn the_demands_do_not_rest_on_the_method() {
    let speaks = |root: &(&str, &str)| root.1.contains("reciprocal");
    let (reciprocals, others): (Vec<_>, Vec<_>) = ROOTS.into_iter().partition(speaks);
    assert_eq!(others.len(), 18);
    assert_eq!(method_below(&others), Vec::<String>::new());
    for root in reciprocals {
        let place = "crates/reciprocal/specs/Reciprocals.antt: `reciprocal_of`".to_string();
        assert!(method_below(&[root]).contains(&place), "{}", root.1);
    }
}

/// Whatever a demand rests on cannot be taken off the page unnoticed.
#[test]
fn a_removed_definition_is_reported() {
    let unneeded = beyond_need(&repository(), &page());
    for (file, name, text) in definitions() {
        let complaint = format!("{file}: `{name}` is not on the page");
        let noticed = found(&changed(&text, "")).contains(&complaint);
        let needed = !unneeded.contains(&format!("{file}: `{name}`"));
        assert_eq!(noticed, needed, "{complaint}");
    }
}

/// The first definition on the page of which nothing but its own text is said here.
fn first_definition() -> (String, String, String) {
    let is_spec = |each: &(String, String, String)| each.0.ends_with(".antt");
    definitions()
        .into_iter()
        .find(is_spec)
        .expect("a definition")
}

#[test]
fn a_changed_definition_is_reported() {
    for (file, name, text) in definitions() {
        let complaint = format!("{file}: `{name}` differs from the page");
        let end = text.trim_end_matches(['}', ';', '\n']).len();
        let other = format!("{} 1{}", &text[..end], &text[end..]);
        let shorter = text.rsplit_once('\n').map_or("", |(start, _)| start);
        let found = found(&changed(&text, &other));
        assert!(found.contains(&complaint), "{complaint}");
        if file.ends_with(".antt") {
            assert_eq!(self::found(&changed(&text, shorter)), [complaint]);
        }
    }
}

#[test]
fn a_remark_in_a_block_is_no_change() {
    let (_, _, text) = first_definition();
    let text = changed(&text, &text.replacen('\n', "\n-- a remark\n", 1));
    assert_eq!(found(&text), Vec::<String>::new());
}

#[test]
fn a_definition_that_the_file_lacks_is_reported() {
    let (file, _, text) = first_definition();
    let more = format!("abbrev pub not_there : ℕ\nnot_there = 0\n\n{text}");
    let text = changed(&text, &more);
    let complaint = format!("{file}: `not_there` is on the page and not in the file");
    assert_eq!(found(&text), [complaint]);
    let extra = format!("{file}: `not_there`");
    assert!(beyond_need(&repository(), &text).contains(&extra));
}

#[test]
fn a_definition_that_stands_twice_is_reported() {
    let (file, name, text) = first_definition();
    let again = format!("{}\n`{file}`:\n\n```\n{text}\n```\n", page());
    assert_eq!(
        found(&again),
        [format!("{file}: `{name}` is on the page twice")]
    );
}

#[test]
fn a_removed_entry_of_the_key_is_reported() {
    for name in [
        "get_or", "≡", "⊥", "λ", "cond", "now", "old", "new", "result", "usize",
    ] {
        let is_entry = |line: &str| {
            let key = Page::parse(&format!("# notation\n{line}")).key;
            line.starts_with('|') && key.contains(name)
        };
        let text: Vec<String> = page()
            .lines()
            .filter(|line| !is_entry(line))
            .map(str::to_string)
            .collect();
        let all = found(&text.join("\n"));
        let complaint = format!("`{name}`, which ");
        assert!(
            all.iter().any(|each| each.starts_with(&complaint)),
            "{name}: {all:?}"
        );
    }
}

#[test]
fn an_entry_of_the_key_has_a_meaning() {
    let text = "# Notation\n| form | meaning |\n|---|---|\n| `a ∘ b` | |\n| `a \\|\\| b` | or |\n# More\n| `sum` | elsewhere |\n";
    let key = Page::parse(text).key;
    assert!(
        key.contains("||") && !key.contains("∘") && !key.contains("sum"),
        "{key:?}"
    );
}

#[test]
fn a_block_names_a_file_that_is_there() {
    let (file, name, _) = first_definition();
    let named = format!("`{file}`:");
    let all = found(&changed(&named, "`crates/none/specs/None.antt`:")).join("\n");
    assert!(
        all.contains("names crates/none/specs/None.antt, which cannot be read"),
        "{all}"
    );
    assert!(
        all.contains(&format!("{file}: `{name}` is not on the page")),
        "{all}"
    );
    let all = found(&changed(&named, "Its file is not named:")).join("\n");
    assert!(all.contains("names no file"), "{all}");
}

#[test]
fn refreshing_restores_a_changed_definition() {
    let (_, _, text) = first_definition();
    let other = changed(&text, &format!("{text} 1"));
    assert_ne!(other, page());
    let root = repository();
    assert_eq!(Page::parse(&other).refreshed(&root, &other), page());
}

#[test]
fn the_names_that_a_definition_uses() {
    let text =
        "abbrev pub f : (p : ℕ) → List ℕ → ℕ\nf p (c ∷ cs) = sum (λ i. c.size + (g i).rows) -- not this";
    let item = &antt::items(text)[0];
    let bound = antt::bound_names(item);
    let words: Vec<String> = item
        .text
        .lines()
        .flat_map(antt::tokens)
        .filter(|token| !antt::is_mark(token) && !token.projected)
        .map(|token| token.text)
        .filter(|word| !bound.contains(word))
        .collect();
    assert_eq!(
        words,
        [
            "abbrev", "pub", ":", ":", "ℕ", "→", "List", "ℕ", "→", "ℕ", "=", "sum", "λ", "+", "g"
        ]
    );
    let imports = antt::imports("use A.B.{\n  a,\n  ◌+◌,\n}\nuse C.{c}\n\nuse D\n", "use ");
    let imports: Vec<(&str, &str)> = imports
        .iter()
        .map(|each| (each.module.as_str(), each.name.as_str()))
        .collect();
    assert_eq!(
        imports,
        [("A.B", "a"), ("A.B", "◌+◌"), ("C", "c"), ("D", "")]
    );
}

#[test]
fn a_function_ends_before_its_body() {
    let text = "// a remark\n#[unsafe(no_mangle)]\npub fn f(x: u8) -> u8\n    ensures { result ≡ x }\n{\n    x\n}\n\npub struct S {\n    pub a: u8,\n}\n";
    let items = source::items(text);
    assert_eq!(items.len(), 2);
    assert_eq!(
        items[0].text,
        "#[unsafe(no_mangle)]\npub fn f(x: u8) -> u8\n    ensures { result ≡ x }"
    );
    assert_eq!(items[1].text, "pub struct S {\n    pub a: u8,\n}");
}

/// How a value is copied and how its proof is looked for is no part of what is stated; the other attributes are.
#[test]
fn an_attribute_for_the_checker_is_left_out() {
    let text = "#[derive(Clone, Copy)]\n#[repr(C)]\npub struct S {\n    pub a: u8,\n}\n\n#[unsafe(no_mangle)]\n#[tactic(\n    auto,\n    using(Lemma.a)\n)]\npub fn f()\n{\n}\n";
    let items = source::items(text);
    assert_eq!(items.len(), 2);
    assert_eq!(
        items[0].text,
        "#[repr(C)]\npub struct S {\n    pub a: u8,\n}"
    );
    assert_eq!(items[1].text, "#[unsafe(no_mangle)]\npub fn f()");
}

/// A clause's name is no word of its fact.
#[test]
fn the_facts_of_a_contract_are_read() {
    let text = "pub fn f(x: u8) -> u8\n    requires low { x < 9 }\n    ensures high { result ≡ x }\n    ensures same { Same x\n        result }\n{\n    x\n}\n";
    let item = &source::items(text)[0];
    let (head, contract) = source::parts(item);
    assert_eq!(head, "pub fn f(x: u8) -> u8");
    assert_eq!(
        source::facts(&contract)
            .split_whitespace()
            .collect::<Vec<_>>(),
        "{ x < 9 } { result ≡ x } { Same x result }"
            .split(' ')
            .collect::<Vec<_>>()
    );
}
