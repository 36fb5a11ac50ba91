//! The program run under the recorder (tests/crash/record.c), and what it did to a folder, in order.

use std::collections::HashMap;
use std::ffi::OsStr;
use std::fs;
use std::os::unix::fs::MetadataExt;
use std::path::{Path, PathBuf};
use std::process::{Command, ExitStatus, Stdio};

use crate::disk::{Change, Disk, Id, Inode};

const PROGRAM: &str = env!("CARGO_BIN_EXE_paviluko");
/// The recorder's library; where it is not named, it is compiled here.
const LIBRARY: &str = "PAVILUKO_RECORDER";
const SOURCE: &str = concat!(env!("CARGO_MANIFEST_DIR"), "/../tests/crash/record.c");
/// Bytes of a record's head.
const HEAD: usize = 80;

/// What happened.
#[derive(Clone, Debug)]
pub enum Event {
    /// The program was started.
    Began,
    /// A new file or folder, which has the next id; its mode.
    File(u32),
    Folder(u32),
    Mode(Id, u32),
    Change(Change),
    Sync(Id),
    SyncAll,
    /// A line of an answer.
    Said(String),
    /// An operation that was made to fail.
    Failed(String),
}

/// What a run of the program is to suffer.
#[derive(Clone, Debug, PartialEq, Eq)]
pub enum Fault {
    None,
    /// Killed before this operation.
    Kill(u32),
    /// This operation fails, with this word of the recorder's.
    Fail(u32, &'static str),
}

/// How a run of the program ended.
pub struct Ended {
    pub status: ExitStatus,
    /// What it wrote to standard error.
    pub errors: String,
}

/// The recorder.
pub struct Recorder {
    library: PathBuf,
    /// The record's file, outside the folder that is watched.
    record: PathBuf,
}

impl Recorder {
    /// The recorder, with a folder for its files.
    pub fn new(place: &Path) -> Recorder {
        let library = std::env::var_os(LIBRARY).map_or_else(|| compile(place), PathBuf::from);
        Recorder { library, record: place.join("record") }
    }
}

/// Compiles the recorder.
fn compile(place: &Path) -> PathBuf {
    let library = place.join("record.so");
    let mut command = Command::new("cc");
    command
        .args(["-std=c11", "-O2", "-Wall", "-Wextra", "-Werror", "-shared", "-fPIC", "-o"])
        .arg(&library)
        .arg(SOURCE);
    assert!(command.status().expect("a C compiler").success(), "{SOURCE} is not compiled");
    library
}

/// What happened to a folder, in order, and how it was before.
pub struct History {
    top: PathBuf,
    pub before: Disk,
    /// With the count of the program's operations at the time.
    pub events: Vec<(u32, Event)>,
    inodes: HashMap<Inode, Id>,
    next: Id,
}

impl History {
    /// A folder as it is. All that is in it is on the disk.
    pub fn new(top: &Path) -> History {
        let (before, inodes) = Disk::of(top);
        let next = inodes.len();
        History { top: top.to_path_buf(), before, events: Vec::new(), inodes, next }
    }

    /// A folder made by somebody, who does not wait for the disk.
    pub fn make_folder(&mut self, name: &str) {
        let path = self.top.join(name);
        fs::create_dir(&path).expect("made");
        let there = fs::metadata(&path).expect("there");
        let head = Head { object: (there.dev(), there.ino()), folder: self.inode_of_top(), ..Head::default() };
        self.new_object(0, &head, name, Event::Folder(there.mode()));
    }

    /// The lines that were answered.
    pub fn answers(&self) -> Vec<String> {
        let said = |(_, event): &(u32, Event)| match event {
            Event::Said(line) => Some(line.clone()),
            _ => None,
        };
        self.events.iter().filter_map(said).collect()
    }

    /// The call that was made to fail first.
    pub fn failed(&self) -> Option<String> {
        let failed = |(_, event): &(u32, Event)| match event {
            Event::Failed(call) => Some(call.clone()),
            _ => None,
        };
        self.events.iter().find_map(failed)
    }

    fn inode_of_top(&self) -> Inode {
        let there = fs::metadata(&self.top).expect("there");
        (there.dev(), there.ino())
    }

    /// Runs the program in the folder, and adds what it does.
    pub fn run<I: AsRef<OsStr>>(&mut self, recorder: &Recorder, words: &[I], fault: &Fault) -> Ended {
        let _ = fs::remove_file(&recorder.record);
        let mut command = Command::new(PROGRAM);
        command.args(words).current_dir(&self.top).stdin(Stdio::null()).stdout(Stdio::null()).stderr(Stdio::piped());
        command.env("LD_PRELOAD", &recorder.library).env("PAVILUKO_RECORD", &recorder.record);
        match fault {
            Fault::None => &mut command,
            Fault::Kill(turn) => command.env("PAVILUKO_KILL", turn.to_string()),
            Fault::Fail(turn, word) => command.env("PAVILUKO_FAIL", format!("{turn}:{word}")),
        };
        let output = command.output().expect("the program starts");
        self.events.push((0, Event::Began));
        self.read(&fs::read(&recorder.record).expect("a record"));
        Ended { status: output.status, errors: String::from_utf8_lossy(&output.stderr).into_owned() }
    }

    /// Adds a record.
    fn read(&mut self, mut record: &[u8]) {
        let mut said = String::new();
        while !record.is_empty() {
            let head = Head::of(record);
            let mut rest = &record[HEAD..];
            let [name, other_name, data] = head.lens.map(|len| {
                let (part, behind) = rest.split_at(len);
                rest = behind;
                part
            });
            record = rest;
            let [name, other_name] = [name, other_name].map(|bytes| String::from_utf8_lossy(bytes).into_owned());
            if head.kind == b'o' {
                said += &String::from_utf8_lossy(data);
                while let Some((line, behind)) = said.split_once('\n') {
                    self.events.push((head.turn, Event::Said(line.to_string())));
                    said = behind.to_string();
                }
                continue;
            }
            self.operation(&head, &name, &other_name, data);
        }
    }

    /// Adds an operation, unless it is one outside the folder.
    fn operation(&mut self, head: &Head, name: &str, other_name: &str, data: &[u8]) {
        let object = self.inodes.get(&head.object).copied();
        let folders = [head.folder, head.other_folder].map(|inode| self.inodes.get(&inode).copied());
        let mut add = |event: Event| self.events.push((head.turn, event));
        let names = |folder: Id, set: &[(&str, Option<Id>)]| {
            let set = set.iter().map(|&(name, id)| (name.to_string(), id)).collect();
            Event::Change(Change::Names { folder, set })
        };
        let at = head.number as usize;
        match (head.kind, object, folders) {
            (b'c', ..) => self.new_object(head.turn, head, name, Event::File(head.mode)),
            (b'd', ..) => self.new_object(head.turn, head, name, Event::Folder(head.mode)),
            (b'l', Some(id), [Some(folder), _]) => add(names(folder, &[(name, Some(id))])),
            (b'u', _, [Some(folder), _]) => add(names(folder, &[(name, None)])),
            (b'r', Some(id), [Some(from), Some(to)]) if from == to => {
                add(names(from, &[(name, None), (other_name, Some(id))]));
            }
            (b'r', Some(id), [Some(from), Some(to)]) => {
                add(names(to, &[(other_name, Some(id))]));
                add(names(from, &[(name, None)]));
            }
            (b'w', Some(file), _) => add(Event::Change(Change::Write { file, at, bytes: data.to_vec() })),
            (b't', Some(file), _) => add(Event::Change(Change::Length { file, len: at })),
            (b'm', Some(id), _) => add(Event::Mode(id, head.mode)),
            (b'f', Some(id), _) => add(Event::Sync(id)),
            (b'S', ..) => add(Event::SyncAll),
            (b'e', ..) => add(Event::Failed(name.to_string())),
            (b'x', ..) => panic!("the recorder has no word for this: {name}"),
            (b'l' | b'r', _, folders) if folders.iter().any(Option::is_some) => panic!("from elsewhere: {name}"),
            _ => (),
        }
    }

    /// A file or a folder that was made. One outside the folder may have an inode that was used before.
    fn new_object(&mut self, turn: u32, head: &Head, name: &str, kind: Event) {
        let Some(&folder) = self.inodes.get(&head.folder) else {
            self.inodes.remove(&head.object);
            return;
        };
        let set = vec![(name.to_string(), Some(self.next))];
        self.inodes.insert(head.object, self.next);
        self.next += 1;
        self.events.push((turn, kind));
        self.events.push((turn, Event::Change(Change::Names { folder, set })));
    }
}

/// What stands before the names and bytes of a record.
#[derive(Default)]
struct Head {
    kind: u8,
    turn: u32,
    /// Of a name, another name and bytes.
    lens: [usize; 3],
    mode: u32,
    object: Inode,
    folder: Inode,
    other_folder: Inode,
    number: u64,
}

impl Head {
    fn of(record: &[u8]) -> Head {
        let four = |at: usize| u32::from_ne_bytes(record[4 * at..4 * at + 4].try_into().expect("4 bytes"));
        let eight = |at: usize| u64::from_ne_bytes(record[8 * at..8 * at + 8].try_into().expect("8 bytes"));
        Head {
            kind: four(0) as u8,
            turn: four(1),
            lens: [2, 3, 4].map(|at| four(at) as usize),
            mode: four(5),
            object: (eight(3), eight(4)),
            folder: (eight(5), eight(6)),
            other_folder: (eight(7), eight(8)),
            number: eight(9),
        }
    }
}

impl Disk {
    /// What an event does to a disk.
    pub fn follow(&mut self, event: &Event) {
        match event {
            Event::File(mode) => drop(self.add_file(*mode)),
            Event::Folder(mode) => drop(self.add_folder(*mode)),
            Event::Mode(id, mode) => self.set_mode(*id, *mode),
            Event::Change(change) => self.change(change.clone()),
            Event::Sync(id) => self.sync(*id),
            Event::SyncAll => self.sync_all(),
            Event::Began | Event::Said(_) | Event::Failed(_) => (),
        }
    }
}
