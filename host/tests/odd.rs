//! Random commands and randomly damaged boxes, with fixed seeds. The program ends with 0 or 1 and never panics; and a
//! damaged card is refused, or the table is right.

mod place;
mod random;

use std::fs;
use std::io::Write;
use std::path::{Path, PathBuf};
use std::process::{Command, Stdio};

use paviluko_host::files::Disk;
use paviluko_host::folder::BoxFolder;
use paviluko_host::runner::{Runner, Stop};
use paviluko_host::{Reading, transaction};

use place::Place;
use random::Random;

const SCRIPTS: usize = 60;
const LINES: usize = 80;
const CARDS: usize = 1500;

fn pick<'a, T>(random: &mut Random, list: &'a [T]) -> &'a T {
    &list[random.below(list.len())]
}

/// A line of a script: often a command, often a wrong one.
fn line(random: &mut Random) -> String {
    const LINES: [&str; 32] = [
        "start",
        "start",
        "start",
        "cut",
        "point",
        "checkpoint",
        "truncate",
        "table",
        "table --csv",
        "table --plain plain",
        "table --plain box/vault",
        "table --plain nowhere/plain",
        "status",
        "help",
        "take 0 100 1=1:5",
        "take 3 7 1=1:5 9=4:-1",
        "accept 1 5 2=2:2",
        "commit 0",
        "commit 1",
        "swap-card box/card-1",
        "swap-card copy",
        "copy-card copy",
        "swap-card --new blank",
        "take --csv script",
        "take-bus 2 5 now 6815156808FD720000000000000007000000000C1334120000E316",
        "take-bus 2 5 100 68 15 15 68 08 FD 72 00 00 00 00 00 00 00 07 00 00 00 00 0C 13 34 12 00 00 E3 16",
        "take-bus 2 5 100 --file script",
        "cut after 3",
        "cut before 9",
        "cut during 2 30",
        "cut during 5 18446744073709551615",
        "#",
    ];
    const WORDS: [&str; 29] = [
        "take",
        "accept",
        "commit",
        "point",
        "truncate",
        "cut",
        "after",
        "before",
        "during",
        "--csv",
        "--file",
        "--new",
        "--plain",
        "table",
        "take-bus",
        "68",
        "681515680",
        "0",
        "7",
        "8",
        "255",
        "18446744073709551615",
        "18446744073709551616",
        "-1",
        "1=1:1",
        "255=4:-2147483648",
        "=:",
        "\u{1b}[0m",
        "\u{fffd}é",
    ];
    if random.below(3) > 0 {
        return pick(random, &LINES).to_string();
    }
    let count = random.below(7);
    (0..count).map(|_| *pick(random, &WORDS)).collect::<Vec<&str>>().join(" ")
}

/// The files below a folder, in order.
fn files(folder: &Path) -> Vec<PathBuf> {
    let mut all = Vec::new();
    let mut entries: Vec<_> = fs::read_dir(folder).expect("there").map(|e| e.expect("read").path()).collect();
    entries.sort();
    for path in entries {
        if path.is_dir() {
            all.extend(files(&path));
        } else {
            all.push(path);
        }
    }
    all
}

/// Damages a file below a folder: a bit, its length, its name, its content, or its being there.
fn damage(folder: &Path, random: &mut Random) {
    let all = files(folder);
    if all.is_empty() {
        return;
    }
    let (path, other) = (pick(random, &all).clone(), pick(random, &all).clone());
    let mut bytes = fs::read(&path).expect("read");
    match random.below(7) {
        0 | 1 if !bytes.is_empty() => {
            let at = random.below(bytes.len());
            bytes[at] ^= 1 << random.below(8);
            fs::write(&path, bytes).expect("written");
        }
        2 => {
            bytes.truncate(random.below(bytes.len() + 1));
            fs::write(&path, bytes).expect("written");
        }
        3 => fs::remove_file(&path).expect("removed"),
        4 => fs::write(&path, fs::read(&other).expect("read")).expect("written"),
        5 => fs::copy(&path, path.with_file_name(format!("{:020}", random.below(12)))).map(|_| ()).expect("copied"),
        _ => fs::rename(&path, path.with_file_name(format!("{:020}", random.below(12)))).expect("renamed"),
    }
}

/// Runs the program on a script. It ends with 0 or 1, and says nothing but one sentence where the box is no box.
fn run(folder: &Path, script: &str) {
    let mut command = Command::new(env!("CARGO_BIN_EXE_paviluko"));
    command.args(["run", "box"]).current_dir(folder);
    let mut child =
        command.stdin(Stdio::piped()).stdout(Stdio::piped()).stderr(Stdio::piped()).spawn().expect("starts");
    let mut stdin = child.stdin.take().expect("piped");
    let text = script.to_string();
    let writer = std::thread::spawn(move || stdin.write_all(text.as_bytes()));
    let output = child.wait_with_output().expect("ends");
    let _ = writer.join().expect("written");
    let errors = String::from_utf8_lossy(&output.stderr);
    assert!(matches!(output.status.code(), Some(0 | 1)), "{:?}: {errors}", output.status);
    assert!(!errors.contains("panicked") && errors.lines().count() <= 2, "{errors}");
}

#[test]
fn no_command_and_no_file_makes_the_program_panic() {
    let mut random = Random(0x0123_4567_89ab_cdef);
    for _ in 0..SCRIPTS {
        let place = Place::new("odd");
        let folder = place.join("here");
        fs::create_dir(&folder).expect("made");
        BoxFolder::create(&folder.join("box"), Disk::Quick).expect("made");
        for _ in 0..3 {
            let script: String = (0..LINES).map(|_| line(&mut random) + "\n").collect();
            fs::write(folder.join("script"), &script).expect("written");
            run(&folder, &script);
            damage(&folder.join("box"), &mut random);
        }
    }
}

/// A box with readings behind and above a checkpoint, and a last record that is not visible, without power; and its table.
fn box_with_readings(folder: &Path, spring: &Path) -> (Runner, Vec<(u8, Reading)>) {
    BoxFolder::create(folder, Disk::Quick).expect("made");
    let mut runner = Runner::open(folder, Disk::Quick).expect("opened");
    runner.start().expect("started");
    for turn in 0..24u16 {
        let meter = turn * 5 % 16;
        let writes = [transaction::Write { meter, code: 1 + (meter % 4) as u8, reading: i32::from(turn) }];
        runner.take((turn % 3) as u8, &transaction::bytes(u64::from(turn / 2), &writes)).expect("taken");
        if turn == 6 {
            runner.copy_card(spring).expect("copied");
        }
        if turn == 10 || turn == 14 {
            runner.point(None).expect("set");
            runner.checkpoint().expect("made");
        }
        if turn == 12 {
            runner.truncate(None).expect("truncated");
        }
    }
    let writes = [transaction::Write { meter: 3, code: 1, reading: 99 }];
    runner.accept(1, &transaction::bytes(99, &writes)).expect("accepted");
    let table = runner.collector().expect("power").readings();
    runner.cut();
    (runner, table)
}

/// Puts a card's folder in the place of another's.
fn put(card: &Path, there: &Path) {
    let _ = fs::remove_dir_all(there);
    for path in files(card) {
        let to = there.join(path.strip_prefix(card).expect("below"));
        fs::create_dir_all(to.parent().expect("below a folder")).expect("made");
        fs::copy(&path, &to).expect("copied");
    }
}

#[test]
fn a_damaged_card_is_refused_or_the_table_is_right() {
    let place = Place::new("damaged");
    let (good, spring) = (place.join("good"), place.join("spring"));
    let (runner, table) = box_with_readings(&good, &spring);
    drop(runner);
    let mut random = Random(0xfedc_ba98_7654_3210);
    let (mut taken, mut numbers) = (0, [0; 16]);
    for turn in 0..CARDS {
        let folder = place.join("box");
        put(&good, &folder);
        let card = folder.join("card-1");
        // Sometimes with a file of last spring's card.
        if random.below(4) == 0 {
            let old = pick(&mut random, &files(&spring)).clone();
            let to = card.join(old.strip_prefix(&spring).expect("below"));
            if to.parent().is_some_and(Path::is_dir) {
                fs::copy(&old, to).expect("copied");
            }
        }
        for _ in 0..1 + random.below(3) {
            damage(&card, &mut random);
        }
        let mut runner = Runner::open(&folder, Disk::Quick).expect("opened");
        let before = *runner.numbers();
        match runner.start() {
            Ok(_) => taken += 1,
            Err(Stop::Refused(refusal)) => {
                numbers[usize::from(refusal.number)] += 1;
                assert_eq!(*runner.numbers(), before);
                put(&good.join("card-1"), &card);
                runner.start().expect("started with its own card");
            }
            Err(stop) => panic!("card {turn}: {stop}"),
        }
        assert_eq!(runner.collector().expect("power").readings(), table, "card {turn}");
    }
    let refused: usize = numbers.iter().sum();
    println!("{CARDS} damaged cards: {refused} refused, {taken} taken with the right table; by number {numbers:?}");
}
