//! The bench sheet's cases of the wired bus, answered by the model: a line a case, as the library's program `bench_sheet` writes
//! them. Standard input is that program's script, whose head says what each word does; words that are not the bus's are passed
//! over.

use std::io;

use paviluko_model::bus::{framed, sum};
use paviluko_model::{Params, Refusal, Transaction, Write, from_bus};

/// What stands in the room before a call.
const BEFORE: u8 = 165;

/// The bytes between the second 68 and the sum.
fn inside(frame: &[u8]) -> &[u8] {
    &frame[4..frame.len() - 2]
}

/// The L bytes of a reply.
fn reply(medium: u8, records: &[u8]) -> Vec<u8> {
    let head = [0x08, 0x05, 0x72, 0x78, 0x56, 0x34, 0x12, 0x24, 0x40, 0x01, medium, 0x55, 0x00, 0x00, 0x00];
    [&head, records].concat()
}

/// The transaction of a frame, or the number and what is returned with it; and whether the other bytes are as they were.
fn said(frame: &[u8], room: usize, meter: u16, stamp: u64) -> String {
    let params = Params::scope();
    let mut out = vec![BEFORE; room];
    let (answer, put) = match from_bus(&params, frame, meter, stamp, &mut out) {
        Ok(len) => {
            let Some(Transaction { stamp, writes }) = Transaction::read(&params, &out[..len]) else {
                panic!("no transaction: {out:02X?}")
            };
            let [Write { meter, code, reading }] = writes[..] else { panic!("{} writes", writes.len()) };
            (format!("taken, stamp {stamp}, meter {meter}, code {code}, 0, reading {reading}"), len)
        }
        Err(Refusal { number: 3, value }) => (format!("3, {value}"), 0),
        Err(Refusal { number, .. }) => (number.to_string(), 0),
    };
    let kept = out[put..].iter().all(|&byte| byte == BEFORE);
    format!("{answer}, the rest {}", if kept { "kept" } else { "changed" })
}

/// A number of the script.
fn number<T: std::str::FromStr>(word: &str) -> T {
    word.parse().unwrap_or_else(|_| panic!("no number: {word}"))
}

fn main() {
    let script = io::read_to_string(io::stdin()).expect("the script on standard input");
    let mut frame = Vec::new();
    for line in script.lines().filter(|line| !line.starts_with('#')) {
        let (commands, name) = line.split_once(": ").unwrap_or((line, ""));
        for command in commands.split("; ") {
            let (word, given) = command.split_once(' ').unwrap_or((command, ""));
            let words: Vec<&str> = given.split(' ').collect();
            // Bytes in hexadecimal, of which the first is a medium or a place.
            let bytes = || words.iter().map(|byte| u8::from_str_radix(byte, 16).expect("bytes")).collect::<Vec<u8>>();
            match word {
                "frame" => frame = bytes(),
                "reply" => frame = framed(&reply(bytes()[0], &bytes()[1..])),
                "more" => frame = framed(&[inside(&frame), &bytes()].concat()),
                "filler" => frame = framed(&[inside(&frame), &vec![0x2F; number(given)]].concat()),
                "set" => {
                    let at = usize::from(bytes()[0]);
                    let new = &bytes()[1..];
                    frame[at..at + new.len()].copy_from_slice(new);
                }
                "sum" => {
                    let at = frame.len() - 2;
                    frame[at] = sum(inside(&frame));
                }
                "add" => frame.extend(bytes()),
                "cut" => frame.truncate(frame.len() - number::<usize>(given)),
                "from-bus" => {
                    let said = said(&frame, number(words[0]), number(words[1]), number(words[2]));
                    println!("{name}: {said}");
                }
                _ => (),
            }
        }
    }
}
