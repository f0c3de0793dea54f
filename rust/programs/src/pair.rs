//! Programs that replace files which belong together, each on cases with old files and new ones.
use crate::texts::{on_link_1, LISTING};
use crate::{grown_of, lists_of, program, run, sheet_of, text_of, Entry, Files, Folder, Line};
use inputs::{encode, Circuit};
use std::collections::BTreeMap;
use std::fs;
use std::process::Command;

/// A name and the bytes of its file.
type Named = (&'static str, Vec<u8>);

/// A run of a program that replaces a pair of files, or three that belong together.
pub struct Pair {
    /// The program.
    pub program: &'static str,
    /// What stands on its standard input.
    pub input: Vec<u8>,
    /// What it prints where the files are new.
    pub out: String,
    /// The files that it reads, besides those that it replaces.
    reads: Vec<Named>,
    /// Old files, in the order in which new ones take their names; without the last the others are refused.
    old: Vec<Named>,
    /// The bytes of the new files.
    new: Vec<Vec<u8>>,
    /// All files, as the program calls them.
    called: &'static str,
    /// What a further run prints where the program reads the files that it replaces: without the last one, and with the new ones.
    again: Option<[String; 2]>,
}

/// What a folder has of a pair.
#[derive(Clone, Copy, Debug, PartialEq, Eq, PartialOrd, Ord)]
pub enum State {
    /// The old pair.
    Old,
    /// No last file.
    Refused,
    /// The new pair.
    New,
}

impl Pair {
    /// `enter` on a text of these circuits.
    fn entered(line: impl Into<Line>, circuits: &[Circuit]) -> Self {
        let line = line.into();
        Self {
            program: "enter",
            input: text_of(line, circuits).into_bytes(),
            out: format!("circuits: {}\n", circuits.len()),
            reads: vec![],
            old: vec![
                ("circuits.rec", encode(&[(77, 8, 9)])),
                ("line.rec", vec![9, 0, 3, 0]),
            ],
            new: vec![encode(circuits), line.bytes()],
            called: "line.rec and circuits.rec",
            again: None,
        }
    }

    /// `lists` on the records of these circuits.
    fn kept(line: impl Into<Line>, circuits: &[Circuit]) -> Self {
        let (line, records) = (line.into(), encode(circuits));
        let old = lists_of((9, 3), &encode(&[(77, 8, 9)])).unwrap();
        Self {
            program: "lists",
            input: vec![],
            out: sheet_of(line, &records),
            new: lists_of(line, &records).unwrap().to_vec(),
            reads: vec![("line.rec", line.bytes()), ("circuits.rec", records)],
            old: vec![
                ("fibres.rec", old[0].clone()),
                ("assign.rec", old[1].clone()),
            ],
            called: "fibres.rec and assign.rec",
            again: None,
        }
    }

    /// `adds` on the plan of these circuits, and these new ones.
    fn grown(line: impl Into<Line>, circuits: &[Circuit], added: &[Circuit]) -> Self {
        let (line, records) = (line.into(), encode(circuits));
        let added = encode(added);
        let [fibres, assigns] = lists_of(line, &records).unwrap();
        let old: Files = [records, fibres, assigns];
        let (out, files) = grown_of(line, &old, &added);
        let new = files.unwrap();
        let second = grown_of(line, &new, &added).0;
        let names = ["circuits.rec", "fibres.rec", "assign.rec"];
        Self {
            program: "adds",
            input: vec![],
            out,
            new: new.to_vec(),
            reads: vec![("line.rec", line.bytes()), ("new.rec", added)],
            old: names.into_iter().zip(old).collect(),
            called: "circuits.rec, fibres.rec and assign.rec",
            again: Some(["R 11 0 0\n".to_owned(), second]),
        }
    }

    /// Each program that replaces a pair on the listing.
    pub fn listings() -> [Self; 2] {
        [
            Self::entered((5, 2, 2), &LISTING),
            Self::kept((5, 2, 2), &LISTING),
        ]
    }

    /// The same, and `adds` on the listing's plan with two more circuits, of which one needs a new fibre.
    pub fn all() -> Vec<Self> {
        let added = [(60, 1, 4), (50, 3, 5)];
        let grown = Self::grown((5, 2, 2), &LISTING, &added);
        Self::listings().into_iter().chain([grown]).collect()
    }

    /// Each program on files of more than 1,024 bytes, `lists` also where only the last is so long.
    pub fn large() -> [Self; 4] {
        let circuits = on_link_1(2048);
        [
            Self::entered((1, 40), &circuits),
            Self::kept((1, 40), &circuits),
            Self::kept((1, 1), &circuits),
            Self::grown((1, 40), &circuits[..1000], &circuits[1000..]),
        ]
    }

    /// The names of the files.
    pub fn names(&self) -> Vec<&'static str> {
        self.old.iter().map(|(name, _)| *name).collect()
    }

    /// The name of the first file.
    pub fn first(&self) -> &'static str {
        self.names()[0]
    }

    /// The name of the last file, without which the others are refused.
    pub fn last(&self) -> &'static str {
        self.names().pop().unwrap()
    }

    /// The names under which the files are written first.
    pub fn drafts(&self) -> Vec<String> {
        let names = self.names().into_iter();
        names.map(|name| format!("{name}.new")).collect()
    }

    /// The name under which the old last file stands while the files are replaced.
    pub fn old_last(&self) -> String {
        format!("{}.old", self.last())
    }

    /// What is printed where the drafts cannot be written.
    pub fn not_written(&self) -> String {
        format!("{} cannot be written\n", self.called)
    }

    /// What is printed where a file cannot take its name.
    pub fn not_replaced(&self) -> String {
        format!("{} cannot be replaced\n", self.called)
    }

    /// A folder with what the program reads, and no pair.
    pub fn without(&self) -> Folder {
        let folder = Folder::new();
        for (name, bytes) in &self.reads {
            folder.put(name, bytes);
        }
        folder
    }

    /// The same with the old pair.
    pub fn with_old(&self) -> Folder {
        let folder = self.without();
        for (name, bytes) in &self.old {
            folder.put(name, bytes);
        }
        folder
    }

    /// The same with the last file of the old pair alone.
    pub fn with_old_last(&self) -> Folder {
        let folder = self.without();
        folder.put(self.last(), &self.old.last().unwrap().1);
        folder
    }

    /// The folders from which it starts: with old files, and without them if it does not read them.
    pub fn starts(&self) -> Vec<Folder> {
        match self.again {
            Some(_) => vec![self.with_old()],
            None => vec![self.without(), self.with_old()],
        }
    }

    /// Gives each draft that is there its name.
    pub fn finish(&self, folder: &Folder) {
        for (name, draft) in self.names().into_iter().zip(self.drafts()) {
            if folder.entries().contains_key(&draft) {
                fs::rename(folder.at(&draft), folder.at(name)).unwrap();
            }
        }
    }

    /// What is then in the folder, and nothing else.
    pub fn replaced(&self) -> BTreeMap<String, Entry> {
        let mut entries = self.without().entries();
        for ((name, _), bytes) in self.old.iter().zip(&self.new) {
            entries.insert((*name).to_owned(), Entry::File(bytes.clone()));
        }
        entries
    }

    /// What a run prints in a folder in this state, and what it then has of the files.
    pub fn from(&self, state: State) -> (&str, State) {
        match (&self.again, state) {
            (Some([without, _]), State::Refused) => (without, State::Refused),
            (Some([_, with]), State::New) => (with, State::New),
            _ => (&self.out, State::New),
        }
    }

    /// Runs the program: what it prints.
    pub fn run(&self, folder: &Folder) -> String {
        run(self.program, folder, &self.input)
    }

    /// A command that runs it after this part of a script, where no file may have more than 1,024 bytes.
    pub fn with_little_room(&self, before: &str, folder: &Folder) -> Command {
        let path = program(self.program);
        let script = format!("{before} ulimit -f 1; exec '{}'", path.display());
        let mut command = Command::new("bash");
        command.args(["-c", &script]).current_dir(folder.path());
        command
    }

    /// What a folder has of the files; nothing if it has old and new ones, or a part of one.
    pub fn state(&self, folder: &Folder) -> Option<State> {
        let entries = folder.entries();
        let file = |name: &str| match entries.get(name) {
            Some(Entry::File(bytes)) => Some(bytes.clone()),
            _ => None,
        };
        let found: Vec<_> = self.names().into_iter().map(file).collect();
        let all: Option<Vec<_>> = found.into_iter().collect();
        let Some(all) = all else {
            let no_last = !entries.contains_key(self.last());
            return no_last.then_some(State::Refused);
        };
        let old: Vec<_> = self.old.iter().map(|(_, bytes)| bytes.clone()).collect();
        match all {
            all if all == old => Some(State::Old),
            all if all == self.new => Some(State::New),
            _ => None,
        }
    }
}
