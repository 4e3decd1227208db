//! The text form: what is written is read back, and what is no operation has a line and a reason.
use compare::generate;
use compare::random::Random;
use gantrysnip::text::{self, quoted};
use gantrysnip::{Action, Id, Key, Operation, Value};

fn read_back(operation: &Operation) -> Operation {
    operation.to_string().parse().unwrap_or_else(|e| panic!("{operation}: {e}"))
}

#[test]
fn histories_are_read_back() {
    for seed in 0..40 {
        let all: Vec<Operation> =
            generate::operations(&mut Random::new(seed)).iter().map(|op| Operation::from_words(op.0)).collect();
        let lines = text::operations(text::written(&all).as_bytes()).unwrap();
        assert_eq!(lines.iter().map(|line| line.operation).collect::<Vec<_>>(), all);
        assert!(lines.iter().zip(1..).all(|(line, number)| line.number == number));
        assert!(all.iter().all(|operation| !operation.to_string().starts_with("words")));
    }
}

#[test]
fn any_words_are_read_back() {
    let mut random = Random::new(5);
    for _ in 0..5000 {
        let ops = generate::operations(&mut Random::new(random.word() % 50));
        let mut words = random.pick(&ops).0;
        for _ in 0..random.below(3) {
            words[random.below(29)] = [random.word(), 0, 1, 2, 17, 63, 64, 65, 1 << 38][random.below(9)];
        }
        let operation = Operation::from_words(words);
        assert_eq!(read_back(&operation), operation);
    }
}

#[test]
fn every_key_of_two_bytes_is_read_back() {
    for both in 0..=u16::MAX {
        let key = Key::new(both.to_be_bytes()).unwrap();
        let operation = Operation::at_key(Id::new(1, 0).unwrap(), Id::ROOT, key, Action::MakeMap);
        assert_eq!(read_back(&operation), operation);
    }
    assert_eq!(quoted(b"a\"b\\ \n\xff\xc3\xa9"), "\"a\\\"b\\\\ \\x0a\\xff\u{e9}\"");
}

#[test]
fn every_kind_of_value_is_read_back() {
    let floats = [0.0, -0.0, 1.5, 1e300, f64::MIN_POSITIVE / 3.0, f64::INFINITY, f64::NEG_INFINITY, f64::NAN];
    let bits = floats.map(Value::float).into_iter().chain([Value::F64(u64::MAX), Value::F64(0x7ff0_0000_0000_0001)]);
    let whole = [i64::MIN, -1, 0, i64::MAX].into_iter();
    let whole =
        whole.flat_map(|n| [Value::Signed(n), Value::Counter(n), Value::Timestamp(n), Value::Unsigned(n as u64)]);
    for value in [Value::Null, Value::Boolean(true), Value::Boolean(false)].into_iter().chain(bits).chain(whole) {
        let operation =
            Operation::insert(Id::new(3, 63).unwrap(), Id::new(2, 1).unwrap(), Id::HEAD, Action::Set(value));
        assert_eq!(read_back(&operation), operation);
    }
}

#[test]
fn a_bad_line_has_its_number_and_a_reason() {
    let cases = [
        ("1@0", "the line ends where what the operation does is expected"),
        ("1 make map", "an id is written counter@actor, as in 12@0, not \"1\""),
        ("0@0 make map", "a counter is 1 to 4294967295, not 0"),
        ("1@64 make map", "an actor is 0 to 63, not 64"),
        ("1@0 grow", "an operation is a make, set, delete or increment, not \"grow\""),
        ("1@0 make tree", "map or list is expected, not \"tree\""),
        ("1@0 set unsigned -1", "\"-1\" is no whole number from 0 to 18446744073709551615"),
        ("1@0 make map at \"k\"", "in is expected, not \"at\""),
        ("1@0 make map in root \"k\"", "at, on or after is expected, not a key in quotes"),
        ("1@0 make map in root at k", "after at comes a key in quotes"),
        ("1@0 make map in root at \"k", "the key has no closing quote"),
        ("1@0 make map in root at \"\\q\"", "after \\ comes one of \" \\ n t, or x and two digits"),
        ("1@0 make map in root at \"1234567890123456789012345\"", "a key has at most 24 bytes, not 25"),
        ("1@0 delete in root at \"k\" over", "the line ends where an id is expected"),
        ("5@0 delete in root at \"k\" over 1@0 1@0", "1@0 is named twice"),
        ("5@0 delete in root at \"k\" 1@0", "over is expected, not \"1@0\""),
        ("words 1 2", "the line ends where a whole number from 0 to 18446744073709551615 is expected"),
    ];
    for (line, reason) in cases {
        let text = format!("# a note\n\n1@0 make list in root at \"r\" # and another\n{line}\n");
        let bad = text::operations(text.as_bytes()).unwrap_err();
        assert_eq!((bad.number, bad.reason.as_str()), (4, reason), "{line}");
    }
    assert_eq!(text::operations(b"\n\xff").unwrap_err().to_string(), "line 2: this is no UTF-8 text");
}

#[test]
fn texts_of_other_editors_are_read() {
    let plain = b"1@0 make map in root at \"k\"\n\n# note\n2@0 make list in root at \"l\"\n".to_vec();
    let windows = String::from_utf8(plain.clone()).unwrap().replace('\n', "\r\n");
    let marked = ["\u{feff}", &windows].concat();
    assert_eq!(text::operations(marked.as_bytes()), text::operations(&plain));
}

#[test]
fn a_long_word_is_shown_by_its_beginning() {
    let bad = text::operations("\u{e9}".repeat(100_000).as_bytes()).unwrap_err();
    assert!(bad.reason.ends_with("\u{e9}\"..") && bad.reason.chars().count() < 120, "{}", bad.reason);
}

#[test]
fn garbage_is_answered() {
    let pieces =
        ["1@0", "set", "in", "root", "at", "\"", "\\x", "over", "#", "words", "7", "\u{e9}", "\t", "on", "head"];
    let mut random = Random::new(9);
    for _ in 0..20000 {
        let line: Vec<&str> = (0..random.below(9)).map(|_| *random.pick(&pieces)).collect();
        let _ = text::operations(line.join([" ", ""][random.below(2)]).as_bytes());
        let bytes: Vec<u8> = (0..random.below(40)).map(|_| random.below(256) as u8).collect();
        let _ = text::operations(&bytes);
    }
}
