//! Nodes written back as text (02, request d).

use checker::{
    Call, CallAnswer, LentNames, LentStore, NAME_BYTES, Refusal, TextLists, WORDS_PER_NODE, call, read_text,
    rival_with_fewer_brackets, write_text,
};

const AMPLE: usize = 9_000;

fn lists() -> TextLists {
    TextLists {
        store: LentStore::fresh(vec![0; 300 * WORDS_PER_NODE], vec![0; 512]).unwrap(),
        names: LentNames { entries: vec![[0; NAME_BYTES + 1]; 9], count: 0 },
    }
}

/// A text read and written back, which must be read to the same node.
fn rewritten(text: &str) -> Result<String, Refusal> {
    let mut lists = lists();
    let id = read_text(&mut lists, text.as_bytes()).unwrap();
    let written = write_text(&lists, id, AMPLE)?;
    let before = lists.clone();
    assert_eq!(read_text(&mut lists, &written), Ok(id), "{text}");
    assert_eq!(lists, before, "{text}");
    Ok(String::from_utf8(written).unwrap())
}

fn operator(operator: u64, flags: u8, operands: &[u32]) -> Call {
    Call::Operator { operator, flags, operands: operands.to_vec() }
}

#[test]
fn brackets_stand_only_where_needed() {
    for (text, expected) in [
        ("2 * ( flow + 3 ) - t1 ^ 2", "2*(flow+3)-t1^2"),
        ("((a)+(b))+(c)", "a+b+c"),
        ("a+(b+c)", "a+(b+c)"),
        ("a-(b-c)", "a-(b-c)"),
        ("(a*b)+(c/d)", "a*b+c/d"),
        ("a*(b*c)/(d/e)", "a*(b*c)/(d/e)"),
        ("(a*b)*c", "a*b*c"),
        ("(a^b)^c", "(a^b)^c"),
        ("a^(b^c)", "a^b^c"),
        ("a^(b*c)", "a^(b*c)"),
        ("(-x)^(2)", "-x^2"),
        ("-(x^2)", "-(x^2)"),
        ("-(-(x))", "--x"),
        ("a-(-b)", "a--b"),
        ("-(a*b)", "-(a*b)"),
        ("a/(-b)^(-c)", "a/-b^-c"),
    ] {
        assert_eq!(rewritten(text).as_deref(), Ok(expected));
        assert_eq!(rival_with_fewer_brackets(expected.as_bytes()), None, "{expected}");
    }
    assert_eq!(rival_with_fewer_brackets(b"(a*b)+c"), Some(b"a*b+c".to_vec()));
    assert_eq!(rival_with_fewer_brackets(b"((a+b))*c"), Some(b"(a+b)*c".to_vec()));
}

#[test]
fn constants() {
    for (text, expected) in [
        ("007", "7"),
        ("#0000000000000000", "0"),
        ("#8000000000000000", "#8000000000000000"),
        ("999999999", "999999999"),
        ("#41CDCD6500000000", "#41CDCD6500000000"),
        ("#41cdcd64ff800000", "999999999"),
        ("#3fe0000000000000", "#3FE0000000000000"),
        ("#bff0000000000000", "#BFF0000000000000"),
        ("#7ff0000000000000", "#7FF0000000000000"),
        ("-2", "-2"),
    ] {
        assert_eq!(rewritten(text).as_deref(), Ok(expected));
    }
}

/// The id that a store call answers.
fn build(lists: &mut TextLists, asked: Call) -> u32 {
    match call(&mut lists.store, &asked) {
        Ok(CallAnswer::Built { id }) => id,
        other => panic!("{other:?}"),
    }
}

#[test]
fn too_deep_too_long_or_no_room() {
    let mut lists = lists();
    let deep = read_text(&mut lists, ("-".repeat(64) + "x").as_bytes()).unwrap();
    assert_eq!(write_text(&lists, deep, 65).map(|text| text.len()), Ok(65));
    assert_eq!(write_text(&lists, deep, 64), Err(Refusal::TextRoom));
    let deeper = build(&mut lists, operator(6, 0, &[deep]));
    assert_eq!(write_text(&lists, deeper, AMPLE), Err(Refusal::TextRoom));
    // A node over itself, again and again: the text doubles each time.
    let mut tower = read_text(&mut lists, b"x").unwrap();
    for _ in 0..2 {
        tower = build(&mut lists, operator(0, 3, &[tower, tower]));
    }
    assert_eq!(write_text(&lists, tower, AMPLE).as_deref(), Ok(&b"x+x+(x+x)"[..]));
    for _ in 0..150 {
        tower = build(&mut lists, operator(0, 3, &[tower, tower]));
    }
    assert_eq!(write_text(&lists, tower, AMPLE), Err(Refusal::TextRoom));
    // 13 comes before 14, and 4 before both.
    let without = build(&mut lists, operator(5, 0, &[tower, tower]));
    assert_eq!(write_text(&lists, without, 0), Err(Refusal::NoText));
    assert_eq!(write_text(&lists, without + 1, 0), Err(Refusal::Operand));
    lists.names.count = 10;
    assert_eq!(write_text(&lists, without + 1, 0), Err(Refusal::NotSound));
}

#[test]
fn nodes_without_text() {
    let mut lists = lists();
    for name in [&b"x"[..], b"1x", b"a b"] {
        lists.names.intern(name).unwrap();
    }
    let x = build(&mut lists, Call::Variable { symbol: 0 });
    assert_eq!(write_text(&lists, x, 1).as_deref(), Ok(&b"x"[..]));
    for asked in [
        Call::Variable { symbol: 1 },
        Call::Variable { symbol: 2 },
        Call::Variable { symbol: 3 },
        operator(0, 0, &[x, x]),
        operator(0, 1, &[x, x]),
        operator(2, 2, &[x, x]),
        operator(0, 3, &[x]),
        operator(2, 3, &[x, x, x]),
        operator(1, 3, &[x, x]),
        operator(6, 1, &[x]),
        operator(5, 0, &[x, x]),
        Call::Function { number: 0, operands: vec![] },
        Call::Control { control: 0, operands: vec![x, x, x] },
    ] {
        let id = build(&mut lists, asked.clone());
        assert_eq!(write_text(&lists, id, AMPLE), Err(Refusal::NoText), "{asked:?}");
        let above = build(&mut lists, operator(6, 0, &[id]));
        assert_eq!(write_text(&lists, above, AMPLE), Err(Refusal::NoText), "{asked:?}");
    }
    // Marks do not matter; other flags of a leaf do.
    lists.store.words[4] = 4;
    assert_eq!(write_text(&lists, x, 1).as_deref(), Ok(&b"x"[..]));
    lists.store.words[4] = 1;
    assert_eq!(write_text(&lists, x, 1), Err(Refusal::NoText));
}
