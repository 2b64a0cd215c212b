//! Texts of document 02: the cases that its sentences settle, and the reader
//! beside the definition on every short text.

use checker::{
    Derivation, LentNames, LentStore, NAME_BYTES, Refusal, TextLists, WORDS_PER_NODE, derivations, read_text,
    read_text_by_definition, steps_of,
};

fn lists(nodes: usize, names: usize) -> TextLists {
    TextLists {
        store: LentStore::fresh(vec![0xAA; nodes * WORDS_PER_NODE], vec![0xBB; 512]).unwrap(),
        names: LentNames { entries: vec![[0xCC; NAME_BYTES + 1]; names], count: 0 },
    }
}

/// A text's formula with every operator in brackets.
fn grouped(text: &str) -> String {
    fn shown(derivation: &Derivation) -> String {
        match derivation {
            Derivation::Number(bits) => f64::from_bits(*bits).to_string(),
            Derivation::Name(name) => String::from_utf8(name.clone()).unwrap(),
            Derivation::Brackets(inner) => shown(inner),
            Derivation::Minus(inner) => format!("(-{})", shown(inner)),
            Derivation::Joined(operator, left, right) => format!("({} {operator:?} {})", shown(left), shown(right)),
        }
    }
    let found = derivations(text.as_bytes());
    assert_eq!(found.len(), 1, "{text}");
    shown(&found[0])
}

fn nesting(text: &str) -> usize {
    derivations(text.as_bytes())[0].nesting()
}

/// The verdict on a text, alike by both ways.
fn verdict(text: &str) -> Result<(), Refusal> {
    let (mut by_reader, mut by_definition) = (lists(200, 9), lists(200, 9));
    let answer = read_text(&mut by_reader, text.as_bytes());
    assert_eq!(answer, read_text_by_definition(&mut by_definition, text.as_bytes()), "{text}");
    assert_eq!(by_reader, by_definition, "{text}");
    answer.map(|_| ())
}

#[test]
fn example_of_02() {
    let mut lists = lists(44, 9);
    assert_eq!(read_text(&mut lists, b"2*(flow + 3) - t1^2"), Ok(7));
    let nodes: Vec<[u64; 5]> = (0..8)
        .map(|id| {
            let words = lists.store.node_words(id);
            [words[0], words[1], words[4], words[6], words[7]]
        })
        .collect();
    let (two, three) = (2.0_f64.to_bits(), 3.0_f64.to_bits());
    let expected = [
        [1, two, 0, 0, 0],
        [0, 0, 0, 0, 0],
        [1, three, 0, 0, 0],
        [2, 0, 3, 1, 2],
        [4, 0, 3, 0, 3],
        [0, 1, 0, 0, 0],
        [6, 0, 0, 5, 0],
        [3, 0, 0, 4, 6],
    ];
    assert_eq!(nodes, expected);
    assert_eq!(lists.store.node_count, 8);
    assert_eq!(&lists.names.entries[0][..6], b"\x04flow\0");
    assert_eq!(&lists.names.entries[1][..4], b"\x02t1\0");
}

#[test]
fn grouping() {
    assert_eq!(grouped("a-b+c-d"), "(((a Sub b) Add c) Sub d)");
    assert_eq!(grouped("a/b*c/d"), "(((a Div b) Mul c) Div d)");
    assert_eq!(grouped("a^b^c"), "(a Pow (b Pow c))");
    assert_eq!(grouped("-x^2"), "((-x) Pow 2)");
    assert_eq!(grouped("2^-x^y"), "(2 Pow ((-x) Pow y))");
    assert_eq!(grouped("a--b*c"), "(a Sub ((-b) Mul c))");
    assert_eq!(grouped("-(a+b)*c^d-e"), "(((-(a Add b)) Mul (c Pow d)) Sub e)");
}

#[test]
fn nesting_is_counted_together() {
    for (text, depth) in
        [("x", 0), ("x^x^x", 2), ("-x^x", 1), ("((x))", 2), ("x^y+z", 1), ("x^-(y)", 3), ("(x^y)^z", 2), ("-(x)^2", 2)]
    {
        assert_eq!(nesting(text), depth, "{text}");
    }
    let deep = |opens: &str, closes: &str, depth| [&opens.repeat(depth), "x", &closes.repeat(depth)].concat();
    for (opens, closes) in [("(", ")"), ("-", ""), ("x^", "")] {
        assert_eq!(verdict(&deep(opens, closes, 64)), Ok(()));
        assert_eq!(verdict(&deep(opens, closes, 65)), Err(Refusal::Nesting));
    }
    assert_eq!(verdict(&deep("(-x^", ")", 21)), Ok(()));
    assert_eq!(verdict(&deep("-(x^", ")", 22)), Err(Refusal::Nesting));
}

#[test]
fn language_comes_before_nesting_and_numbers() {
    let open = "(".repeat(65);
    assert_eq!(verdict(&[&open, "x", &")".repeat(64)].concat()), Err(Refusal::Language));
    let deep = [&open, "#7FF8000000000000", &")".repeat(65)].concat();
    assert_eq!(verdict(&deep), Err(Refusal::Nesting));
    assert_eq!(verdict("#7FF8000000000000+"), Err(Refusal::Language));
    assert_eq!(verdict("#fff0000000000001"), Err(Refusal::NotANumber));
    assert_eq!(verdict("#fFf0000000000000"), Ok(()));
    assert_eq!(verdict("#8000000000000000"), Ok(()));
}

#[test]
fn tokens() {
    let long = "n".repeat(33);
    for text in ["007", "123456789", "x1y2", &long[1..], " \u{20}x ", "2 * x", "#0123456789abcDEF", "( - x )"] {
        assert_eq!(verdict(text), Ok(()), "{text}");
    }
    let wrong = "2x;x y;f(x);1234567890;#0123456789abcde;#0123456789abcdef0;# 0123456789abcdef;#0123456789abcdeg; ;\
                 \tx;x\n;x_1;+x;x+;();x);(x;x(;1 2;1.5;x%y;é;x\0;#";
    for text in wrong.split(';').chain([long.as_str()]) {
        assert_eq!(verdict(text), Err(Refusal::Language), "{text}");
    }
    assert_eq!(verdict(""), Err(Refusal::Sheet));
}

#[test]
fn long_texts() {
    let sum = |length: usize| "x+".repeat(length.div_ceil(2))[..length].to_string();
    assert_eq!(steps_of(sum(8_191).as_bytes()).map(|steps| steps.len()), Ok(8_191));
    assert_eq!(steps_of(sum(8_192).as_bytes()), Err(Refusal::Language));
    assert_eq!(steps_of(sum(8_193).as_bytes()), Err(Refusal::Sheet));
    assert!(steps_of((sum(8_191) + " ").as_bytes()).is_ok());
    assert_eq!(steps_of("(".repeat(8_192).as_bytes()), Err(Refusal::Language));
    assert_eq!(steps_of(("-".repeat(8_191) + "x").as_bytes()), Err(Refusal::Nesting));
}

#[test]
fn stopped_readings_keep_what_was_made() {
    let mut full = lists(3, 2);
    assert_eq!(read_text(&mut full, b"b*a+c"), Err(Refusal::NoNamePlace));
    assert_eq!((full.store.node_count, full.names.count), (3, 2));
    // A known name passes a full list; a name stays when its node meets 21.
    assert_eq!(read_text(&mut full, b"a"), Ok(1));
    let mut full = lists(1, 2);
    assert_eq!(read_text(&mut full, b"a-b"), Err(Refusal::NoNodePlace));
    assert_eq!((full.store.node_count, full.names.count), (1, 2));
    full.names.entries[0][30] = 1;
    assert_eq!(read_text(&mut full, b""), Err(Refusal::NotSound));
}

#[test]
fn reader_and_definition_agree_on_every_short_text() {
    const ALPHABET: &[u8] = b"x1()+-*^# ";
    let mut texts: Vec<Vec<u8>> = vec![Vec::new()];
    for _ in 0..4 {
        texts = texts.iter().flat_map(|text| ALPHABET.iter().map(move |byte| [&text[..], &[*byte]].concat())).collect();
        for text in &texts {
            let _ = verdict(str::from_utf8(text).unwrap());
        }
    }
}
