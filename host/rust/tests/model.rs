//! Random hex lines through this crate against the Python reading of document 01 and of the request pages (differential/model.py and
//! eps.py), over all algorithm codes. Needs python3 with the package cryptography (Debian: python3-cryptography).

mod chance;
mod lines;

use chance::Chance;
use lines::{hex, unhex, Slots};
use std::io::Write;
use std::path::PathBuf;
use std::process::{Command, Stdio};

/// What a Python program of differential/ prints for these lines.
fn python(program: &[&str], input: &[String]) -> Vec<String> {
    let folder = PathBuf::from(env!("CARGO_MANIFEST_DIR")).join("../../differential");
    let mut child = Command::new("python3")
        .args(program)
        .current_dir(folder)
        .env("PYTHONDONTWRITEBYTECODE", "1")
        .stdin(Stdio::piped())
        .stdout(Stdio::piped())
        .spawn()
        .expect("python3 is there");
    let mut stdin = child.stdin.take().unwrap();
    // A character is an octet here, as in samples.rs: random lines need not be text.
    let octets: Vec<u8> = input.iter().flat_map(|line| line.chars().map(|c| c as u8).chain([b'\n'])).collect();
    // Written from a thread of its own: the program may answer before it has read everything.
    let writer = std::thread::spawn(move || stdin.write_all(&octets));
    let output = child.wait_with_output().unwrap();
    assert!(output.status.success(), "python3 {:?} failed", program);
    let _ = writer.join().unwrap();
    let text: String = output.stdout.into_iter().map(char::from).collect();
    text.trim_end_matches('\n').split('\n').map(str::to_string).collect()
}

const MODEL: [&str; 1] = ["model.py"];
const EPS: [&str; 2] = ["-c", "import sys, eps\ns = eps.Session()\nfor l in sys.stdin: print(s.line(l[:-1]))"];

/// Lines with the answers of this crate.
#[derive(Default)]
struct Session {
    slots: Slots,
    lines: Vec<String>,
    answers: Vec<String>,
}

impl Session {
    fn say(&mut self, line: String) -> &str {
        let answer = self.slots.answer(&line, "").unwrap_or_else(|| panic!("not a line for this crate: {}", line));
        self.lines.push(line);
        self.answers.push(answer);
        self.answers.last().unwrap()
    }

    /// Says a line that seals, and gives the octets.
    fn sealed(&mut self, line: String) -> Option<Vec<u8>> {
        let words: Vec<&str> = self.say(line).split(' ').collect();
        match words[..] {
            ["ok", _, _, octets] => Some(unhex(octets)),
            _ => None,
        }
    }

    fn compare(&self, what: &str, model: &[String]) {
        assert_eq!(self.answers.len(), model.len());
        for ((line, ours), theirs) in self.lines.iter().zip(&self.answers).zip(model) {
            assert!(ours == theirs, "\n  line   {:.300}\n  model  {:.300}\n  ours   {:.300}", line, theirs, ours);
        }
        let count = |name: &str, front: &str| {
            self.lines.iter().zip(&self.answers).filter(|(l, a)| l.starts_with(name) && a.starts_with(front)).count()
        };
        let (seals, opens) = match what {
            "EPS" => (count("eseal", "ok") + count("esr", "ok"), count("eopen", "ok")),
            _ => {
                let opens = ["open", "across"].iter().map(|call| count(call, "ok") + count(call, "no 8")).sum();
                (count("seal", "ok") + count("opaque", "ok") + count("initial", "ok"), opens)
            }
        };
        println!("{} against the model: {} seals, {} opens taken, {} lines compared, all codes", what, seals, opens, self.lines.len());
        assert!(seals >= 1500 && opens >= 1000);
    }
}

fn codes_and_keys(chance: &mut Chance) -> String {
    let codes = (chance.pick(&[0, 1, 1, 2, 3, 3]), chance.pick(&[0, 1, 1, 2, 3, 3]));
    format!("{:02x} {:02x} {} {}", codes.0, codes.1, hex(&chance.key()), hex(&chance.key()))
}

fn start(chance: &mut Chance) -> u32 {
    chance.pick(&[0, 0, 5, 250, 300, (1 << 24) - 300, (1 << 24) - 10])
}

fn inner(chance: &mut Chance) -> Vec<u8> {
    let n = match chance.below(60) {
        0 => chance.pick(&[1000, 4096]),
        _ => chance.below(60),
    };
    chance.octets(n)
}

#[test]
fn five_gs() {
    let mut chance = Chance::new(503);
    let mut session = Session::default();
    for _ in 0..150 {
        let made = codes_and_keys(&mut chance);
        let next: Vec<String> = (0..4).map(|_| format!("{:08x}", start(&mut chance))).collect();
        for end in 0..2 {
            session.say(format!("restore {} {} {}", end, made, next.join(" ")));
            session.say(format!("window {} {:02x}", end, chance.pick(&[0, 8, 64])));
        }
        let mut radio = Vec::new();
        for _ in 0..40 {
            let (end, connection) = (chance.below(2), chance.pick(&[1, 1, 2]));
            let header = chance.pick(&[1, 2, 2, 2]);
            match chance.below(20) {
                0..=4 => {
                    let inner = [&[0x7e, 0x00, 0x64], &inner(&mut chance)[..]].concat();
                    let sealed = session.sealed(format!("seal {} {:02x} {} {} ffff {}", end, header, end, connection, hex(&inner)));
                    radio.extend(sealed.map(|octets| (end, connection, octets)));
                }
                5..=6 => {
                    let inner = inner(&mut chance);
                    let sealed = session.sealed(format!("opaque {} {:02x} {} {} ffff {}", end, header, end, connection, hex(&inner)));
                    radio.extend(sealed.map(|octets| (end, connection, octets)));
                }
                7..=8 => {
                    let whole =
                        [&[0x7e, 0x00, 0x4c, 0x10, 0, 2, 1, 2, 0x40, 0x02, 0x20][..], &[chance.octet()], &[0x72, 0, 3, 7, 7, 7]].concat();
                    let sealed = session.sealed(format!("initial 0 {} ffff {}", connection, hex(&whole)));
                    radio.extend(sealed.map(|octets| (0, connection, octets)));
                }
                9 => {
                    session.say(format!("n1s1 {}", end));
                    session.say(format!("n1s1v {} {:02x}", end, chance.octet()));
                }
                10 => {
                    if let Some(value) = session.sealed(format!("s1n1 1 {:02x} {:02x} ffff", chance.below(9), chance.below(17))) {
                        session.say(format!("s1n1v 0 {}", hex(&value)));
                        session.say(format!("s1n1v 0 {}", hex(&chance.damaged(value))));
                    }
                }
                11 => {
                    let inner = [&[0x07, 0x48], &inner(&mut chance)[..]].concat();
                    if let Some(octets) = session.sealed(format!("epsseal 0 ffff {}", hex(&inner))) {
                        session.say(format!("epsopen 1 ffff {}", hex(&chance.damaged(octets))));
                    }
                }
                12 if chance.once_in(3) => {
                    let made = codes_and_keys(&mut chance);
                    session.say(format!("reselect 0 {}", made));
                    session.say(format!("reselect 1 {}", made));
                }
                _ if !radio.is_empty() => {
                    let i = radio.len() - 1 - chance.below(radio.len().min(6));
                    let (by, connection, octets) = if chance.once_in(4) { radio[i].clone() } else { radio.remove(i) };
                    // Half of them across connections, on either of which they arrive.
                    let (call, connection) = if chance.once_in(2) { ("across", chance.pick(&[1, 2])) } else { ("open", connection) };
                    session.say(format!("{} {} {} {} ffff {}", call, 1 - by, by, connection, hex(&chance.damaged(octets))));
                }
                _ => (),
            }
        }
    }
    let model = python(&MODEL, &session.lines);
    session.compare("5GS", &model);
    // The connection that a message arrived on is the fourth word of its line; the one that it was taken on, the second of its answer.
    let across: Vec<_> = session.lines.iter().zip(&session.answers).filter(|(line, _)| line.starts_with("across")).collect();
    let taken_on = |connection: &str, answer: &str| answer.starts_with(&format!("ok {} ", connection));
    let elsewhere = across.iter().filter(|(line, answer)| {
        let arrived_on = line.split(' ').nth(3).unwrap();
        taken_on(if arrived_on == "1" { "2" } else { "1" }, answer)
    });
    let elsewhere = elsewhere.count();
    println!("5GS against the model, across accesses: {} calls, {} accepted on the other access, all codes", across.len(), elsewhere);
    assert!(across.len() >= 800 && elsewhere >= 100);
}

#[test]
fn eps() {
    let mut chance = Chance::new(603);
    let mut session = Session::default();
    for _ in 0..150 {
        let made = codes_and_keys(&mut chance);
        let next = format!("{:08x} {:08x}", start(&mut chance), start(&mut chance));
        for end in 0..2 {
            session.say(format!("erestore {} {} {}", end, made, next));
            session.say(format!("ewindow {} {:02x}", end, chance.pick(&[0, 8, 64])));
        }
        let mut radio = Vec::new();
        for _ in 0..40 {
            let end = chance.below(2);
            match chance.below(20) {
                0..=5 => {
                    let (header, inner) = (chance.pick(&[1, 2, 2, 3, 4]), inner(&mut chance));
                    let sealed = session.sealed(format!("eseal {} {:02x} {} ffff {}", end, header, end, hex(&inner)));
                    radio.extend(sealed.map(|octets| (end, octets)));
                }
                6..=8 => {
                    let sealed = session.sealed(format!("esr 0 {:02x} ffff", chance.below(9)));
                    radio.extend(sealed.map(|octets| (0, octets)));
                }
                9 if chance.once_in(3) => {
                    let made = codes_and_keys(&mut chance);
                    session.say(format!("ereselect 0 {}", made));
                    session.say(format!("ereselect 1 {}", made));
                }
                _ if !radio.is_empty() => {
                    let i = radio.len() - 1 - chance.below(radio.len().min(6));
                    let (by, octets): (usize, Vec<u8>) = if chance.once_in(4) { radio[i].clone() } else { radio.remove(i) };
                    let direction = if chance.once_in(40) { 1 - by } else { by };
                    session.say(format!("eopen {} {} ffff {}", 1 - by, direction, hex(&chance.damaged(octets))));
                }
                _ => (),
            }
        }
    }
    let model = python(&EPS, &session.lines);
    session.compare("EPS", &model);
}

/// The sessions of differential/, with their cases at each boundary.
#[test]
fn differential_sessions() {
    let lines = python(&["sessions.py", "20", "8000"], &[]);
    let answers = python(&MODEL, &lines);
    assert_eq!(lines.len(), answers.len());
    let (compared, not_asked) = lines::compare(lines.iter().map(String::as_str).zip(answers.iter().map(String::as_str)));
    println!("differential/sessions.py against the model: {} lines compared, {} not asked", compared, not_asked);
    assert!(compared > 2 * not_asked);
}
