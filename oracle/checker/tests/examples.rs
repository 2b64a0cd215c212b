//! The listing that 01 prints, and the cases that its notes settle.

use checker::answer;

fn sheet(hexadecimal: &str) -> Vec<u8> {
    let digits: Vec<u8> = hexadecimal.bytes().filter(|byte| *byte != b' ').collect();
    digits.chunks(2).map(|pair| u8::from_str_radix(str::from_utf8(pair).unwrap(), 16).unwrap()).collect()
}

fn listing(hexadecimal: &str) -> String {
    String::from_utf8(answer(&sheet(hexadecimal), false)).unwrap()
}

const SUM: &str = "01 0005 01 00000007 0009 02 0000000000000000 0007 03 00 03 0000 0001";

#[test]
fn printed_listing() {
    let text = listing(&format!("{SUM} 0008 06 0002 FF 00000064"));
    assert_eq!(text, "ok 0\n0 0 0000000000000007 4\n1 1 0000000000000000 0\n2 2 0000000000000000 3 0 1\n");
}

#[test]
fn budgets_at_the_turns() {
    let spent = listing(&format!("{SUM} 0008 06 0002 FF 00000002"));
    assert_eq!(spent, "spent 2\n0 0 0000000000000007 0\n1 1 0000000000000000 0\n2 2 0000000000000000 3 0 1\n");
    assert!(listing(&format!("{SUM} 0008 06 0002 FF 00000003")).starts_with("ok 0\n"));
    assert!(listing(&format!("{SUM} 0008 06 0000 FF 00000000")).starts_with("spent 0\n"));
}

#[test]
fn sheets_without_records() {
    assert_eq!(listing("01"), "ok -\n");
    assert_eq!(listing(""), "refused 1 at 0\n");
    assert_eq!(listing("02"), "refused 1 at 0\n");
}

#[test]
fn refusals_come_in_order() {
    // Length of a record, half an operand, operator, flags, count, operand, threshold.
    assert_eq!(listing("01 00"), "refused 2 at 0\n");
    assert_eq!(listing("01 0000"), "refused 2 at 0\n");
    assert_eq!(listing("01 0006 03 07 04 0000 00"), "refused 2 at 0\n");
    assert_eq!(listing("01 0003 03 07 04"), "refused 5 at 0\n");
    assert_eq!(listing("01 0003 03 00 04"), "refused 5 at 0\n");
    assert_eq!(listing("01 0003 03 00 03"), "refused 6 at 0\n");
    assert_eq!(listing("01 0005 03 00 03 0000"), "refused 4 at 0\n");
    assert_eq!(listing("01 000B 07 0000 8000000000000000"), "refused 4 at 0\n");
    assert_eq!(
        listing("01 0005 01 00000000 000B 07 0000 8000000000000000"),
        "refused 7 at 1\n0 0 0000000000000000 0\n"
    );
    assert!(listing("01 0005 01 00000000 000B 07 0000 7FF0000000000001").starts_with("refused 7 at 1\n"));
    assert!(listing("01 0005 01 00000000 000B 07 0000 7FF0000000000000").starts_with("ok 0\n"));
}

#[test]
fn record_number_1024() {
    let mut bytes = vec![1];
    for _ in 0..1_024 {
        bytes.extend([0, 5, 1, 0, 0, 0, 0]);
    }
    assert!(answer(&bytes, false).starts_with(b"ok 0\n"));
    bytes.push(0);
    assert!(answer(&bytes, false).starts_with(b"refused 3 at 1024\n"));
}
