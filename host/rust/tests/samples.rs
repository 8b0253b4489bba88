//! The published sessions: the examples of docs/HEX-LINES.md, session/README.md and docs/HANDOVER.md, the fixed sample of the hex program,
//! and the session of the EPS context. And the refusals' sentences, which saihdelu.h has too.

mod lines;

use std::path::PathBuf;

// Octet by octet: the fixed sample has lines that are no text.
fn read(path: &str) -> String {
    let path = PathBuf::from(env!("CARGO_MANIFEST_DIR")).join("../..").join(path);
    let octets = std::fs::read(&path).unwrap_or_else(|error| panic!("{}: {}", path.display(), error));
    octets.into_iter().map(char::from).collect()
}

// The lines and answers of a page: its text that is set in by four spaces, in pairs.
fn quoted(page: &str) -> Vec<&str> {
    page.lines().filter(|l| l.starts_with("    ")).map(str::trim).collect()
}

fn pairs<'a>(quoted: &'a [&'a str]) -> impl Iterator<Item = (&'a str, &'a str)> {
    quoted.chunks(2).map(|pair| (pair[0], pair[1]))
}

#[test]
fn hex_lines_example() {
    let page = read("docs/HEX-LINES.md");
    let quoted = quoted(&page[page.find("## Example").expect("it has an example")..]);
    let (compared, not_asked) = lines::compare(pairs(&quoted));
    println!("docs/HEX-LINES.md: {} lines compared, {} not asked", compared, not_asked);
    assert!(compared >= 29 && compared > 4 * not_asked);
}

#[test]
fn session() {
    let page = read("session/README.md");
    let quoted = quoted(&page);
    let (compared, not_asked) = lines::compare(pairs(&quoted));
    println!("session/README.md: {} lines compared, {} not asked", compared, not_asked);
    assert!(compared >= 33 && compared > 4 * not_asked);
}

#[test]
fn handover() {
    let page = read("docs/HANDOVER.md");
    let quoted = quoted(&page);
    let (compared, not_asked) = lines::compare(pairs(&quoted));
    println!("docs/HANDOVER.md: {} lines compared, {} not asked", compared, not_asked);
    assert!(compared >= 10 && not_asked == 0);
}

#[test]
fn fixed_sample() {
    let (stdin, stdout) = (read("crates/nas_hex/stdin"), read("crates/nas_hex/stdout"));
    // An end of line is LF alone: the sample has CR inside lines, which are `bad`.
    let (stdin, stdout) = (stdin.trim_end_matches('\n').split('\n'), stdout.trim_end_matches('\n').split('\n'));
    assert_eq!(stdin.clone().count(), stdout.clone().count());
    let (compared, not_asked) = lines::compare(stdin.zip(stdout));
    println!("crates/nas_hex: {} lines compared, {} not asked", compared, not_asked);
    assert!(compared > 2 * not_asked);
}

/// Document 02, item 6. Slots 0 and 1 have the keys of the first example.
#[test]
fn eps_session() {
    let keys = "000102030405060708090a0b0c0d0e0f 101112131415161718191a1b1c1d1e1f";
    let made = [format!("enew 0 02 02 {}", keys), format!("enew 1 02 02 {}", keys)];
    let session = [
        (made[0].as_str(), "ok"),
        (made[1].as_str(), "ok"),
        ("ewindow 1 08", "ok"),
        ("eseal 0 02 0 0010 0748aa", "ok 00000000 0009 27154153a700eaeb9a"),
        ("esr 0 05 0004", "ok 00000001 0004 c7a14b16"),
        ("esr 0 05 0004", "ok 00000002 0004 c7a2b2d0"),
        ("eopen 1 0 0000 c7a2b2d0", "ok 00000002 00000002 0000 0c 05 -"),
        ("eopen 1 0 0010 27154153a700eaeb9a", "ok 00000000 00000002 0003 02 0748aa"),
        ("eopen 1 0 0000 c7a14b16", "no 7"),
        ("eopen 1 1 0000 c7a14b16", "no 11"),
        ("eopen 1 1 0000 c7a14b", "no 1"),
        ("eseal 0 01 1 0006 -", "ok 00000000 0006 1752ca1c9000"),
        ("eopen 1 1 0010 1752ca1c9000", "no 1"),
        ("esr 0 08 0000", "no 16"),
    ];
    assert_eq!(lines::compare(session.iter().copied()), (session.len(), 0));
}

#[test]
fn sentences_are_the_headers() {
    use saihdelu::NasError::*;
    let header = read("host/include/saihdelu.h");
    let errors = [
        BufferTooShort,
        WrongDiscriminator,
        WrongHeaderType,
        TooLong,
        OutputTooShort,
        NasCountExhausted,
        IntegrityCheckFailed,
        UnknownMessage,
        WrongPairing,
        WrongDirection,
        NotAMobilityRequest,
        ReservedAlgorithm,
        WindowTooLarge,
        OtherAlgorithms,
        NumberTooLarge,
        Other(17),
        WrongContainer,
        NoSuchPlace,
        AuthenticMessageRefused {
            error: Box::new(UnknownMessage),
            plain: Vec::new(),
            security_header_type: 1,
            count: saihdelu::NasCount::ZERO,
            distance: 0,
            connection: None,
        },
    ];
    let mut numbers: Vec<u8> = errors.iter().map(|e| e.number()).collect();
    numbers.sort_unstable();
    assert_eq!(numbers, (1..=19).collect::<Vec<u8>>());
    for error in errors {
        let row = format!("case {}: return \"{}\";", error.number(), error.sentence());
        assert!(header.contains(&row), "saihdelu.h has no {}", row);
    }
}
