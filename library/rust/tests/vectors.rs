//! The functions on values of another program, in the folder that MB_VECTORS names.

use mb_library::{Refusal, Said, chain_said, chain_verify, hss_verify, lms_verdict, lms_verify, trust};

struct Row {
    verifies: bool,
    key: Vec<u8>,
    text: Vec<u8>,
    signature: Vec<u8>,
}

fn path(name: &str) -> std::path::PathBuf {
    std::path::Path::new(&std::env::var("MB_VECTORS").expect("MB_VECTORS names a folder")).join(name)
}

fn file(name: &str) -> Vec<u8> {
    std::fs::read(path(name)).unwrap()
}

fn bytes_of(word: &str) -> Vec<u8> {
    let digits = word.trim_matches('-');
    (0..digits.len() / 2)
        .map(|at| u8::from_str_radix(&digits[2 * at..2 * at + 2], 16).unwrap())
        .collect()
}

fn rows(name: &str) -> Vec<Row> {
    let text = std::fs::read_to_string(path(name)).unwrap();
    let lines = text.lines().filter(|line| !line.starts_with('#'));
    lines
        .map(|line| {
            let words: Vec<_> = line.split(' ').collect();
            Row {
                verifies: words[0] == "1",
                key: bytes_of(words[1]),
                text: bytes_of(words[2]),
                signature: bytes_of(words[3]),
            }
        })
        .collect()
}

fn lms(row: &Row) -> bool {
    lms_verify(row.key[..].try_into().unwrap(), &row.text, &row.signature)
}

#[test]
fn signatures_verify() {
    let rows = rows("lms.txt");
    assert_eq!(rows.len(), 20);
    for row in &rows {
        assert!(lms(row));
        assert_eq!(lms_verdict(&row.key, &row.text, &row.signature), Ok(()));
        assert_eq!(lms_verdict(&row.key[1..], &row.text, &row.signature), Err(Refusal::NoKey));
        assert_eq!(lms_verdict(&row.key, &[], &row.signature), Err(Refusal::BadSignature));
        assert_eq!(lms_verdict(&row.key, &row.text, &[]), Err(Refusal::BadSignature));
    }
}

#[test]
fn calls_run_at_once() {
    let rows = rows("lms.txt");
    std::thread::scope(|scope| {
        for _ in 0..8 {
            scope.spawn(|| assert!((0..4).all(|_| rows.iter().all(lms))));
        }
    });
}

#[test]
fn levels_verify() {
    for row in rows("hss.txt") {
        let key: &[u8; 60] = row.key[..].try_into().unwrap();
        assert_eq!(hss_verify(key, &row.text, &row.signature), row.verifies);
    }
}

#[test]
fn chains_are_listed_and_judged() {
    let (maker, chain) = (file("maker"), file("chain"));
    let maker: &[u8; 56] = maker[..].try_into().unwrap();
    let mut room = [0; 4096];
    let listing = chain_verify(maker, &chain, 1, &mut room).unwrap();
    assert_eq!(listing, file("listing"));
    let length = listing.len();
    let few = &mut room[..7];
    assert_eq!(chain_verify(maker, &chain, 1, few), Err(Refusal::NoRoom { length }));
    assert_eq!(chain_verify(maker, &chain, 9, few), Err(Refusal::KeyUnknown));
    assert_eq!(chain_verify(maker, &[], 1, few), Err(Refusal::Form { offset: 0 }));
    assert_eq!(trust(maker, &chain, 1, b"allow alive alive\n"), Ok(()));
    assert_eq!(trust(maker, &chain, 1, b""), Err(Refusal::Denied { configuration: 4 }));
    assert_eq!(trust(maker, &chain, 1, b"\nallow\n"), Err(Refusal::BadPolicy { line: 2 }));
}

#[test]
fn statements_are_told() {
    let (plain, maker) = (file("maker"), file("said_maker"));
    let maker: &[u8; 56] = maker[..].try_into().unwrap();
    let (message, answer) = (file("said_message"), file("said_answer"));
    assert_eq!(chain_said(plain[..].try_into().unwrap(), &file("chain"), 1), Ok(None));
    let Ok(Some(said)) = chain_said(maker, &message, 1) else {
        panic!("a message")
    };
    assert!(matches!(said, Said::Message { .. }) && said.bytes() == b"hello");
    let Ok(Some(said)) = chain_said(maker, &answer, 1) else {
        panic!("an answer")
    };
    let Said::Answer { input, .. } = said else {
        panic!("no answer")
    };
    assert_eq!(input[..], bytes_of("4fddb6e92a8333684779335007eda9426ddd8ea849ce4ab7c8340016d9d9d89a"));
    assert_eq!(said.bytes(), b"abc");
    assert_eq!(chain_said(maker, &answer, 9), Err(Refusal::KeyUnknown));
}
