//! A disk as POSIX allows a power cut to leave it.
//!
//! What was synced is there: a file's bytes and length after a sync of the file, a folder's names after a sync of the
//! folder. Neither brings the other along: a synced file may have no name, a name may stand for an empty file, and a
//! folder's own name is its parent's. Each change that was not synced may be there or not, whichever came before it or
//! after it: a name set or taken away (a rename within a folder is one change of two names, between two folders it is two),
//! a length set, a write. A write may be torn: a part of it is there, and the rest is as before, or zeros.

use std::collections::{BTreeMap, BTreeSet, HashMap};
use std::fs::{self, DirBuilder, OpenOptions};
use std::hash::{DefaultHasher, Hash, Hasher};
use std::io::Write;
use std::os::unix::fs::{DirBuilderExt, MetadataExt, OpenOptionsExt};
use std::path::{Path, PathBuf};
use std::rc::Rc;

use crate::random::Random;

/// A file or a folder. The first is the folder that holds all.
pub type Id = usize;
pub const TOP: Id = 0;

/// Device and inode.
pub type Inode = (u64, u64);

/// A file's bytes, with their hash.
#[derive(Debug)]
pub struct Content {
    bytes: Vec<u8>,
    hash: u64,
}

impl Content {
    fn new(bytes: Vec<u8>) -> Rc<Content> {
        let mut hasher = DefaultHasher::new();
        bytes.hash(&mut hasher);
        Rc::new(Content { hash: hasher.finish(), bytes })
    }
}

/// What a file or a folder holds.
#[derive(Clone, Debug)]
enum Node {
    File(Rc<Content>),
    Folder(BTreeMap<String, Id>),
}

/// A change of one file or one folder, which is there or not after a cut.
#[derive(Clone, Debug)]
pub enum Change {
    /// Names of a folder, set or taken away together.
    Names { folder: Id, set: Vec<(String, Option<Id>)> },
    /// Bytes written to a file.
    Write { file: Id, at: usize, bytes: Vec<u8> },
    /// A file's length set.
    Length { file: Id, len: usize },
}

impl Change {
    /// Whose sync brings it to the disk.
    fn of(&self) -> Id {
        match *self {
            Change::Names { folder, .. } => folder,
            Change::Write { file, .. } | Change::Length { file, .. } => file,
        }
    }
}

/// What a cut leaves of a change.
#[derive(Clone, Copy, Debug, PartialEq, Eq)]
pub enum Left {
    Nothing,
    All,
    /// So many bytes of a write, the rest as before.
    Part(usize),
    /// So many bytes of a write, and zeros for the rest.
    Zeros(usize),
}

impl Change {
    /// In how many ways a cut can leave it, where a tear counts once.
    fn ways(&self) -> usize {
        match self {
            Change::Write { .. } => 5,
            Change::Names { .. } | Change::Length { .. } => 2,
        }
    }

    /// One of these ways. Where a write is torn is drawn.
    fn left(&self, way: usize, random: &mut Random) -> Left {
        match (self, way) {
            (_, 0) => Left::Nothing,
            (Change::Write { bytes, .. }, 2) => Left::Part(random.below(bytes.len())),
            (Change::Write { bytes, .. }, 3) => Left::Zeros(random.below(bytes.len())),
            (Change::Write { .. }, 4) => Left::Zeros(0),
            _ => Left::All,
        }
    }
}

/// What a cut may leave of changes: all combinations up to a bound; beyond it nothing, everything, some changes alone, some
/// missing alone, and some combinations of any kind.
pub fn combinations(changes: &[Change], bound: usize, random: &mut Random) -> Vec<Vec<Left>> {
    let all = changes.iter().fold(1usize, |all, change| all.saturating_mul(change.ways()));
    if all <= bound {
        return (0..all).map(|number| combination(changes, number, random)).collect();
    }
    let mut list = vec![vec![Left::Nothing; changes.len()], vec![Left::All; changes.len()]];
    while list.len() < bound / 2 {
        let (one, alone) = (random.below(changes.len()), random.below(2) == 0);
        let left = |at: usize| if (at == one) == alone { Left::All } else { Left::Nothing };
        list.push((0..changes.len()).map(left).collect());
    }
    while list.len() < bound {
        let often = 1 + random.below(9);
        let mut left = |change: &Change| match random.below(10) < often {
            true if random.below(4) == 0 => change.left(random.below(change.ways()), random),
            true => Left::All,
            false => Left::Nothing,
        };
        list.push(changes.iter().map(&mut left).collect());
    }
    list
}

/// A combination by its number.
fn combination(changes: &[Change], mut number: usize, random: &mut Random) -> Vec<Left> {
    let mut list = Vec::new();
    for change in changes {
        list.push(change.left(number % change.ways(), random));
        number /= change.ways();
    }
    list
}

/// What a cut can leave: files and folders, each behind the folder that it is in.
#[derive(Clone)]
pub struct Tree {
    items: Vec<Item>,
    /// Of paths and bytes.
    pub hash: u64,
}

/// A file or a folder of a tree.
#[derive(Clone)]
struct Item {
    /// From the top.
    path: PathBuf,
    mode: u32,
    /// Of a file.
    file: Option<(Id, Rc<Content>)>,
}

/// The disk, and the changes that were not synced.
#[derive(Clone, Debug)]
pub struct Disk {
    nodes: Vec<Node>,
    modes: Vec<u32>,
    changes: Vec<Change>,
}

impl Disk {
    /// A folder with what is in it, all on the disk. Which inode is which.
    pub fn of(top: &Path) -> (Disk, HashMap<Inode, Id>) {
        let mut disk = Disk { nodes: Vec::new(), modes: Vec::new(), changes: Vec::new() };
        let mut inodes = HashMap::new();
        disk.read(top, &mut inodes);
        (disk, inodes)
    }

    fn read(&mut self, path: &Path, inodes: &mut HashMap<Inode, Id>) -> Id {
        let there = fs::symlink_metadata(path).expect("there");
        let inode = (there.dev(), there.ino());
        if let Some(&id) = inodes.get(&inode) {
            return id;
        }
        let id = if there.is_dir() { self.add_folder(there.mode()) } else { self.add_file(there.mode()) };
        inodes.insert(inode, id);
        self.nodes[id] = if there.is_dir() {
            let entries = fs::read_dir(path).expect("read").map(|entry| entry.expect("read"));
            let name = |entry: &fs::DirEntry| entry.file_name().into_string().expect("a name in text");
            Node::Folder(entries.map(|entry| (name(&entry), self.read(&entry.path(), inodes))).collect())
        } else {
            Node::File(Content::new(fs::read(path).expect("read")))
        };
        id
    }

    /// An empty file, without a name yet.
    pub fn add_file(&mut self, mode: u32) -> Id {
        self.add(Node::File(Content::new(Vec::new())), mode)
    }

    /// An empty folder, without a name yet.
    pub fn add_folder(&mut self, mode: u32) -> Id {
        self.add(Node::Folder(BTreeMap::new()), mode)
    }

    fn add(&mut self, node: Node, mode: u32) -> Id {
        self.nodes.push(node);
        self.modes.push(mode & 0o7777);
        self.nodes.len() - 1
    }

    /// Sets a mode, at once.
    pub fn set_mode(&mut self, id: Id, mode: u32) {
        self.modes[id] = mode & 0o7777;
    }

    pub fn is_folder(&self, id: Id) -> bool {
        matches!(self.nodes[id], Node::Folder(_))
    }

    /// A change that is not synced yet.
    pub fn change(&mut self, change: Change) {
        self.changes.push(change);
    }

    /// A file or a folder synced: all changes of it so far.
    pub fn sync(&mut self, id: Id) {
        let (done, left) = std::mem::take(&mut self.changes).into_iter().partition(|change| change.of() == id);
        self.changes = left;
        self.settle(done);
    }

    /// Everything synced.
    pub fn sync_all(&mut self) {
        let done = std::mem::take(&mut self.changes);
        self.settle(done);
    }

    fn settle(&mut self, done: Vec<Change>) {
        for change in done {
            apply(&mut self.nodes[change.of()], &change, Left::All);
        }
        self.forget();
    }

    /// Forgets the changes of what no cut can leave with a name.
    fn forget(&mut self) {
        let mut seen = BTreeSet::from([TOP]);
        let mut next = vec![TOP];
        while let Some(id) = next.pop() {
            let mut found = Vec::new();
            if let Node::Folder(names) = &self.nodes[id] {
                found.extend(names.values().copied());
            }
            for change in &self.changes {
                if let Change::Names { folder, set } = change
                    && *folder == id
                {
                    found.extend(set.iter().filter_map(|&(_, id)| id));
                }
            }
            next.extend(found.into_iter().filter(|&id| seen.insert(id)));
        }
        self.changes.retain(|change| seen.contains(&change.of()));
    }

    /// The changes that were not synced.
    pub fn changes(&self) -> &[Change] {
        &self.changes
    }

    /// What a cut leaves, given what it leaves of each change.
    pub fn tree(&self, left: &[Left]) -> Tree {
        let mut changed: HashMap<Id, Node> = HashMap::new();
        for (change, &left) in self.changes.iter().zip(left) {
            if left != Left::Nothing {
                let node = changed.entry(change.of()).or_insert_with(|| self.nodes[change.of()].clone());
                apply(node, change, left);
            }
        }
        let mut tree = Tree { items: Vec::new(), hash: 0 };
        let mut hasher = DefaultHasher::new();
        self.collect(TOP, &changed, PathBuf::new(), &mut tree, &mut hasher);
        tree.hash = hasher.finish();
        tree
    }

    /// What there is without a cut.
    pub fn whole(&self) -> Tree {
        self.tree(&vec![Left::All; self.changes.len()])
    }

    fn collect(&self, id: Id, changed: &HashMap<Id, Node>, path: PathBuf, tree: &mut Tree, hasher: &mut DefaultHasher) {
        path.as_os_str().hash(hasher);
        match changed.get(&id).unwrap_or(&self.nodes[id]) {
            Node::File(content) => {
                content.hash.hash(hasher);
                tree.items.push(Item { path, mode: self.modes[id], file: Some((id, content.clone())) });
            }
            Node::Folder(names) => {
                names.len().hash(hasher);
                tree.items.push(Item { path: path.clone(), mode: self.modes[id], file: None });
                for (name, &id) in names {
                    self.collect(id, changed, path.join(name), tree, hasher);
                }
            }
        }
    }

    /// The path of a file or a folder without a cut, for a person to read.
    pub fn path(&self, id: Id) -> String {
        let mut names: HashMap<Id, (String, Id)> = HashMap::new();
        let mut add = |folder: Id, name: &String, id: Id| names.insert(id, (name.clone(), folder));
        for (folder, node) in self.nodes.iter().enumerate() {
            if let Node::Folder(entries) = node {
                entries.iter().for_each(|(name, &id)| drop(add(folder, name, id)));
            }
        }
        for change in &self.changes {
            if let Change::Names { folder, set } = change {
                set.iter().for_each(|(name, id)| drop(id.map(|id| add(*folder, name, id))));
            }
        }
        let (mut at, mut path) = (id, Vec::new());
        while let Some((name, folder)) = names.get(&at) {
            path.push(name.as_str());
            at = *folder;
        }
        path.reverse();
        path.join("/")
    }

    /// A change for a person to read.
    pub fn words(&self, change: &Change) -> String {
        match change {
            Change::Names { folder, set } => {
                let folder = self.path(*folder);
                let words = set.iter().map(|(name, id)| format!("{}{name}", if id.is_some() { "+" } else { "-" }));
                format!("{folder}: {}", words.collect::<Vec<_>>().join(" "))
            }
            Change::Write { file, at, bytes } => format!("{}: {} bytes at {at}", self.path(*file), bytes.len()),
            Change::Length { file, len } => format!("{}: length {len}", self.path(*file)),
        }
    }
}

impl Tree {
    /// Whether it has a folder.
    pub fn has_folder(&self, path: &str) -> bool {
        self.items.iter().any(|item| item.file.is_none() && item.path == Path::new(path))
    }

    /// Makes a folder hold just this.
    pub fn build(&self, top: &Path) {
        if top.exists() {
            fs::remove_dir_all(top).expect("removed");
        }
        let mut first: HashMap<Id, PathBuf> = HashMap::new();
        for Item { path, mode, file } in &self.items {
            let path = if path.as_os_str().is_empty() { top.to_path_buf() } else { top.join(path) };
            let Some((id, content)) = file else {
                DirBuilder::new().mode(*mode).create(path).expect("a folder");
                continue;
            };
            if let Some(other) = first.get(id) {
                fs::hard_link(other, path).expect("a second name");
                continue;
            }
            let made = OpenOptions::new().write(true).create_new(true).mode(*mode).open(&path);
            made.and_then(|mut file| file.write_all(&content.bytes)).expect("a file");
            first.insert(*id, path);
        }
    }
}

/// Makes a change of a file or a folder, or what a cut leaves of it.
fn apply(node: &mut Node, change: &Change, left: Left) {
    match (node, change) {
        (Node::Folder(names), Change::Names { set, .. }) => {
            for (name, id) in set {
                match id {
                    Some(id) => drop(names.insert(name.clone(), *id)),
                    None => drop(names.remove(name)),
                }
            }
        }
        (Node::File(content), Change::Length { len, .. }) => {
            let mut bytes = content.bytes.clone();
            bytes.resize(*len, 0);
            *content = Content::new(bytes);
        }
        (Node::File(content), Change::Write { at, bytes, .. }) => {
            *content = Content::new(write(content.bytes.clone(), *at, bytes, left));
        }
        (node, change) => panic!("{change:?} of {node:?}"),
    }
}

/// A file's bytes after a write, or what a cut leaves of it.
fn write(mut old: Vec<u8>, at: usize, bytes: &[u8], left: Left) -> Vec<u8> {
    let (kept, end) = match left {
        Left::Nothing => return old,
        Left::All => (bytes.len(), at + bytes.len()),
        Left::Part(kept) => (kept, at + kept),
        Left::Zeros(kept) => (kept, at + bytes.len()),
    };
    old.resize(old.len().max(end), 0);
    old[at..end].fill(0);
    old[at..at + kept].copy_from_slice(&bytes[..kept]);
    old
}

#[test]
fn a_sync_of_a_file_and_one_of_its_folder_bring_it_to_the_disk() {
    let mut random = Random(1);
    let mut seen = |disk: &Disk| {
        let trees = combinations(&disk.changes, 1000, &mut random).into_iter().map(|left| disk.tree(&left));
        let bytes = |tree: Tree| tree.items.into_iter().find_map(|item| Some((item.path, item.file?.1.bytes.clone())));
        trees.map(bytes).collect::<BTreeSet<Option<(PathBuf, Vec<u8>)>>>()
    };
    let is = |name: &str, bytes: &[u8]| Some((PathBuf::from(name), bytes.to_vec()));
    let mut disk = Disk { nodes: Vec::new(), modes: Vec::new(), changes: Vec::new() };
    disk.add_folder(0o755);
    let file = disk.add_file(0o644);
    disk.change(Change::Names { folder: TOP, set: vec![("a".to_string(), Some(file))] });
    disk.change(Change::Write { file, at: 0, bytes: b"xyz".to_vec() });
    let first = seen(&disk);
    assert!([None, is("a", b""), is("a", b"xyz"), is("a", b"\0\0\0")].iter().all(|state| first.contains(state)));

    let mut named = disk.clone();
    named.sync(TOP);
    assert!(!seen(&named).contains(&None) && seen(&named).contains(&is("a", b"")));
    disk.sync(file);
    assert_eq!(seen(&disk), BTreeSet::from([None, is("a", b"xyz")]));
    disk.change(Change::Names { folder: TOP, set: vec![("a".to_string(), None), ("b".to_string(), Some(file))] });
    assert_eq!(seen(&disk), BTreeSet::from([None, is("a", b"xyz"), is("b", b"xyz")]));
    disk.sync(TOP);
    assert_eq!(seen(&disk), BTreeSet::from([is("b", b"xyz")]));
}
