"""Wrong bodies are the mistakes that they are named after: each of these edits, which the prover refuses, is built without
a proof and has to give the wrong replies that its mistake has, where the right program gives the right ones.

All are built at once, in a folder of their own. Of each edit the crate that it changes and the crates above stand there
once more, with a number behind their names, and the edit is made in that copy."""
import pathlib
import re
import shutil
import subprocess
import sys
import tempfile
from typing import NamedTuple

ROOT = pathlib.Path(__file__).resolve().parent.parent
CRATES = ROOT / "crates"
# What the rows of scripts are built of, beside the kit.
ROWS = "rows"
ROWS_NEED = ["rec_types", "page_store", "btree_delete", "record_file", "command_text"]
ROWS_FILES = {"lib.rt": ROOT / "tests" / "wrong_bodies.txt",
              **{name: CRATES / "recfile" / "src" / name for name in ("call.rt", "commit_keeper.rt", "list_text.rt")}}


class Mistake(NamedTuple):
    """An edit; over which file the script runs; its replies; and the wrong ones."""

    crate: str
    edit: str
    over: str
    script: str
    right: str
    wrong: str


MISTAKES = [
    Mistake("record_file", "rollback_restores_whole_file", "memory 9",
            "begin|begin|save 1|put 1 b =1|put 2 d =2|commit 2|back 1 1|list",
            "ok 1|ok 2|ok 1|ok none|ok none|ok|ok 1|- d =2|ok 1",
            "ok 1|ok 2|ok 1|ok none|ok none|ok|ok 1|ok 0"),
    Mistake("tx_log", "undo_oldest_first", "memory 9",
            "begin|put 1 a =x|put 1 a =y|back 1 0|get 1 a|keys 1|log",
            "ok 1|ok none|ok =x|ok 2|ok none|ok 0|ok 4 4",
            "ok 1|ok none|ok =x|ok 2|ok =x|ok 0|ok 4 4"),
    Mistake("btree_delete", "a_key_that_moved_up_is_not_found", "tree 1",
            "begin|begin|put 1 b =1|put 2 a =2|put 2 c =3|back 1 0|list",
            "ok 1|ok 2|ok none|ok none|ok none|ok 1|- a =2 @2|- c =3 @2|ok 2|ok 0",
            "ok 1|ok 2|ok none|ok none|ok none|ok 1|- a =2 @2|- b =1|- c =3 @2|ok 3|- b =1|ok 1"),
    Mistake("tx_log", "resume_undoes_compensations", "failing 5",
            "begin|begin|put 1 a =1|put 1 b =2|put 1 c =3|back 1 0|put 2 e =5|put 2 c =9|resume 1|list|log",
            "ok 1|ok 2|ok none|ok none|ok none|stopped 1 2 Device|ok none|ok none|ok 2|- c =9 @2|- e =5 @2|ok 2|ok 8 10",
            "ok 1|ok 2|ok none|ok none|ok none|stopped 1 2 Device|ok none|ok none|ok 2|- b =2|- e =5 @2|ok 2|ok 8 10"),
    Mistake("tx_log", "rollback_frees_every_key", "memory 9",
            "begin|begin|put 1 a =1|save 1|put 1 a =2|back 1 1|put 2 a =9|get 1 a",
            "ok 1|ok 2|ok none|ok 1|ok =1|ok 1|no Held 1|ok =1",
            "ok 1|ok 2|ok none|ok 1|ok =1|ok 1|ok =1|no Held 2"),
    Mistake("tx_log", "keys_held_until_end", "memory 9",
            "begin|begin|save 1|put 1 a =2|get 2 a|back 1 1|put 2 a =9|get 1 a|commit 1|put 2 a =8",
            "ok 1|ok 2|ok 1|ok none|no Held 1|ok 1|ok none|no Held 2|ok|ok =9",
            "ok 1|ok 2|ok 1|ok none|no Held 1|ok 1|no Held 1|ok none|ok|ok none"),
    Mistake("record_file", "stopped_change_undone_again", "failing 5",
            "begin|begin|put 1 a =1|put 1 b =2|put 1 c =3|back 1 0|put 2 e =5|put 2 c =9|resume 1|list",
            "ok 1|ok 2|ok none|ok none|ok none|stopped 1 2 Device|ok none|ok none|ok 2|- c =9 @2|- e =5 @2|ok 2",
            "ok 1|ok 2|ok none|ok none|ok none|stopped 1 3 Device|ok none|ok none|ok 3|- e =5 @2|ok 1"),
    Mistake("record_file", "table_not_changed", "tree 2",
            "begin|put 1 m =keep|get 1 m|commit 1",
            "ok 1|ok none|ok =keep|ok|- m =keep|ok 1",
            "ok 1|ok none|ok =keep|ok|ok 0"),
    Mistake("page_store", "close_leaves_a_changed_page_out", "tree 2",
            "begin|put 1 m =keep|commit 1",
            "ok 1|ok none|ok|- m =keep|ok 1",
            "ok 1|ok none|ok|not opened: page 1 is damaged"),
    Mistake("btree_node", "open_takes_a_file_being_written", "broken_off 1",
            "begin|put 1 a =x|put 1 b =y|put 1 c =z|commit 1",
            "ok 1|ok none|ok none|ok none|ok|not opened: the file was not closed cleanly",
            "ok 1|ok none|ok none|ok none|ok|- a =x|- b =y|- c =z|ok 3"),
]


def listed_needs():
    """What each crate of the repository needs, as crates.txt says."""
    needs = {}
    for line in (ROOT / "crates.txt").read_text().splitlines():
        found = re.match(r"(\w+)[^:]*:(.*)", line)
        if found:
            needs[found[1]] = found[2].split()
    return needs


def below(needs, names):
    """These crates of the repository, and those that they need."""
    found = set()
    while names:
        found.update(names)
        names = [need for name in names for need in needs[name] if need in needs and need not in found]
    return found


def above(needs, name):
    """The crate, and those that need it."""
    found = {name}
    while True:
        more = {other for other in needs if found & set(needs[other])} - found
        if not more:
            return found
        found |= more


class Room:
    """A folder of crates."""

    def __init__(self, folder):
        self.folder = pathlib.Path(folder)
        needs = listed_needs()
        self.needs = {name: needs[name] for name in below(needs, ROWS_NEED)} | {ROWS: ROWS_NEED}
        self.lines = []
        self.copy(self.needs, "")

    def copy(self, names, mark):
        """Copies crates, with a mark behind their names."""
        for name in names:
            source = self.folder / "crates" / (name + mark) / "src"
            if name == ROWS:
                source.mkdir(parents=True)
                for path, of in ROWS_FILES.items():
                    shutil.copy(of, source / path)
            else:
                shutil.copytree(CRATES / name / "src", source)
            for file in source.rglob("*.rt"):
                file.write_text(self.marked(file.read_text(), names, mark))
            needed = " ".join(need + mark if need in names else need for need in self.needs[name])
            self.lines.append(f"{name}{mark}: {needed}".rstrip())

    @staticmethod
    def marked(text, names, mark):
        """A text with the mark behind these names of crates."""
        return re.sub(rf"\b({'|'.join(names)})\b", rf"\g<0>{mark}", text) if mark else text

    def edit(self, mistake, mark):
        """Makes the mistake in a copy of its crate, below copies of the crates above it."""
        names = sorted(above(self.needs, mistake.crate))
        self.copy(names, mark)
        text = (CRATES / mistake.crate / "must-fail" / f"{mistake.edit}.edit").read_text()
        for line in text.splitlines():
            word, _, rest = line.partition(": ")
            rest = self.marked(rest, names, mark)
            if word == "file":
                path = self.folder / "crates" / (mistake.crate + mark) / rest
            elif word == "old":
                old = rest
            elif word == "new":
                before = path.read_text()
                if before.count(old) != 1:
                    sys.exit(f"wrong_bodies: FAILED: {mistake.edit}: {before.count(old)} times: {old}")
                path.write_text(before.replace(old, rest))

    def add_program(self, marks):
        """A program that runs the rows of the crates with the mark that its first word says."""
        arms = "".join(f'        "{mark}" => {ROWS}{mark}::replies(alloc, kind, number, &script),\n' for mark in marks)
        source = self.folder / "crates" / "main" / "src"
        source.mkdir(parents=True)
        (source / "main.rt").write_text(PROGRAM.replace("ARMS", arms))
        self.lines.append("main: " + " ".join(ROWS + mark for mark in marks))
        (self.folder / "crates.txt").write_text("\n".join(self.lines) + "\n")


PROGRAM = """//! Runs a script over the crates of a mistake.
#![tactic(auto)]

use std::io::Read;
use std::process::ExitCode;
use std::{env, io};

fn main(rt: HostRuntime) -> io::Result<ExitCode> {
    let alloc = rt.alloc();
    let mut words: Vec<String> = Vec::new(alloc);
    for text in env::args(&rt)? {
        words.push(text)?;
    }
    let mut script = String::new(alloc);
    rt.stdin().read_to_string(&mut script)?;
    let kind = words[2].as_str();
    let number: u32 = words[3].parse().unwrap();
    let replies = match words[1].as_str() {
ARMS        _ => String::new(alloc),
    };
    print!(rt; "{replies}")?;
    Ok(ExitCode::from(0))
}
"""


def add_case(folder, name, mark, mistake, replies):
    """A run of the mistake's script over the crates with a mark, and the replies that it has to have."""
    (folder / name).write_text(mistake.script.replace("|", "\n") + "\n")
    (folder / f"{name}.args").write_text("\n".join([mark, *mistake.over.split()]) + "\n")
    (folder / f"{name}.stdout").write_text(replies.replace("|", "\n") + "\n")


def main():
    with tempfile.TemporaryDirectory(prefix="wrong-bodies-") as folder:
        room = Room(folder)
        cases = room.folder / "cases"
        cases.mkdir()
        marks = [f"_{number}" for number, _ in enumerate(MISTAKES, 1)]
        for mark, mistake in zip(marks, MISTAKES):
            room.edit(mistake, mark)
            add_case(cases, f"right_{mistake.edit}", "", mistake, mistake.right)
            add_case(cases, f"wrong_{mistake.edit}", mark, mistake, mistake.wrong)
        room.add_program(["", *marks])
        tried = subprocess.run(["rt", "try", "--steps", "1", "--cases", str(cases)], cwd=room.folder / "crates" / "main",
                               stdin=subprocess.DEVNULL, capture_output=True, text=True, check=False)
    if tried.returncode != 0:
        print(tried.stdout, tried.stderr)
        sys.exit("wrong_bodies: FAILED: what is told above differs")
    print(f"wrong_bodies: {len(MISTAKES)} mistakes give their wrong replies")


main()
