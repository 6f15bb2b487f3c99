"""Trials of changed code, for tools/mutate and tests/wrong_edits: a copy of the repository in which changes are made, and what the prover says of
them. A function's proof rests on what other functions promise and not on how they keep it, so changes in different functions can be tried at
once: each is judged by the facts of its own function."""
import contextlib
import difflib
import glob
import os
import re
import shutil
import subprocess

FUNCTION = re.compile(r'^( *)(?:pub )?(?:extern "C" )?fn (\w+)')
CLAUSE = re.compile(r'^ +(?:requires|ensures|decreases|where)\b')
OWN_FACT = re.compile(r'(?:\./)?proofs/([\w/+]+)/(?:Answers|Invariants|Proof)\.antt:\d+:\d+: error: ')
LEMMA = re.compile(r'(?:\./)?(proofs/[\w/+]+\.antt):\d+:\d+: error: ')
OPEN_GOAL = re.compile(r'note: src/\w+\.rt:\d+:\d+: it is not proved that ')
OF_FUNCTION = re.compile(r'fn \w+::([\w:]+): (.*)')
MISTAKE = re.compile(r'(?:\./)?(src/\w+\.rt):(\d+):\d+: error\[')
GONE = re.compile(r'^(?:\./)?(proofs/[\w/+]+\.antt):\d+:\d+: error: .*module `[^`]*\.Goals` has no `([^`]+)` that can be named from here', re.M)
ASKED = re.compile(r'^help: `Goals` has no `([^`]+)`; rattle asks for (.*?)(?:;|$)', re.M)
OTHER_SHAPE = ('can be named from here', 'has no field', 'is not in scope', 'was not admitted', 'was not checked', 'were not checked', 'cannot be read',
               'this pattern needs', 'write the clause', 'no clause covers')
LIMIT = 1800  # seconds


def functions(lines):
    """The bodies of a file's functions: name, number of the first line, number of the line after the last."""
    number = 0
    while number < len(lines):
        found = FUNCTION.match(lines[number])
        if found:
            start, has_clauses = number, False
            while lines[start] != found.group(1) + '{' and (has_clauses or not lines[start].endswith('{')):
                start += 1
                has_clauses = has_clauses or bool(CLAUSE.match(lines[start]))
            end = start + 1
            while lines[end] != found.group(1) + '}':
                end += 1
            yield found.group(2), start + 1, end
            number = end
        number += 1


def full_name(parts):
    """A function's module and name, as the check's lines and its files have them; without the type that it belongs to, and the sign of one that calls itself."""
    return '::'.join(part.lstrip('+') for part in parts if part not in ('lib', 'main') and not part[0].isupper())


class Piece:
    """A stretch of a file and the text that takes its place."""

    def __init__(self, path, text, start, end, new):
        self.path, self.start, self.end, self.new = path, start, end, new
        lines = text.split('\n')
        self.first, self.last = text.count('\n', 0, start), text.count('\n', 0, end)
        within = [found for found in functions(lines) if found[1] <= self.first and self.last < found[2]]
        module = os.path.basename(path)[:-3]
        self.function = full_name([module, within[0][0]]) if within else None
        self.body = range(*within[0][1:]) if within else range(0)


class Trial:
    """A change: some pieces of one crate."""

    def __init__(self, crate, pieces):
        self.crate, self.pieces = crate, pieces
        self.functions = {piece.function for piece in pieces}

    def stands_at(self, path, line):
        """Whether a line is of a function that is changed."""
        return any(piece.path == path and line in piece.body for piece in self.pieces)


def rounds(trials):
    """Trials that can be made at once, as no two are in one function; those outside functions go alone."""
    made = []
    for trial in trials:
        apart = None not in trial.functions
        fits = [round for round in made if apart and not any(None in other.functions or other.functions & trial.functions for other in round)]
        if fits:
            fits[0].append(trial)
        else:
            made.append([trial])
    return made


class NotProved(Exception):
    """A crate that is not proved as it stands, so that a trial of it would say nothing."""


class Room:
    """A copy of the repository's sources. What other copies on this machine have proved already rt takes over by itself."""

    def __init__(self, folder):
        self.folder, self.begun = folder, set()
        for part in glob.glob('crates/*/*/'):
            if part.split('/')[2] in ('src', 'specs', 'proofs'):
                shutil.copytree(part, f'{folder}/{part}')
        shutil.copy('crates.txt', folder)

    def rt(self, crate, *words):
        """What rt says, in a crate's folder."""
        try:
            run = subprocess.run(['rt', *words], cwd=f'{self.folder}/crates/{crate}', stdin=subprocess.DEVNULL, stdout=subprocess.PIPE,
                                 stderr=subprocess.STDOUT, text=True, errors='replace', timeout=LIMIT)
        except subprocess.TimeoutExpired:
            return f'rt {" ".join(words)} had not ended after {LIMIT} seconds'
        return run.stdout

    def begin(self, crate):
        """Has the next check begin with what one of the crate as it stands proved. A check replaces such a file, and changes none, so a link will do."""
        kept, first = (f'{self.folder}/crates/{crate}/out/{name}' for name in ('incremental', 'first'))
        if crate not in self.begun:
            said = self.rt(crate, 'check', '--jobs', '1')
            if not proved(said):
                raise NotProved(f'{crate} is not proved as it stands:\n{said[-3000:]}')
            os.rename(kept, first)
            self.begun.add(crate)
        shutil.rmtree(kept, ignore_errors=True)
        shutil.copytree(first, kept, copy_function=lambda one, other: os.link(one, other) if one.endswith('.oantt') else shutil.copy2(one, other))

    def check(self, trials):
        """What the check of a crate says, with all of some changes made."""
        self.begin(trials[0].crate)
        with self.changed(trials):
            return self.rt(trials[0].crate, 'check', '--jobs', '1')

    @contextlib.contextmanager
    def changed(self, trials):
        """The repository with some changes, for as long as the trial takes."""
        kept = {}
        for piece in sorted((piece for trial in trials for piece in trial.pieces), key=lambda piece: -piece.start):
            text = self.text(piece.path)
            kept.setdefault(piece.path, text)
            self.write(piece.path, text[:piece.start] + piece.new + text[piece.end:])
        try:
            yield
        finally:
            for path, text in kept.items():
                self.write(path, text)

    def text(self, path):
        with open(f'{self.folder}/{path}') as file:
            return file.read()

    def write(self, path, text):
        with open(f'{self.folder}/{path}', 'w') as file:
            file.write(text)


def test_of(goal):
    """The last test that a goal is named by: its facts and the ways into a join have that in their names too."""
    return re.split(r'(?<![a-z])(?:then|else|if)-', goal)[-1]


def fitted(room, crate, said):
    """What brings the proofs of a crate to the names that their goals have after a change, as a trial beside it, where a check said that some are gone: a goal is
    named by the tests before it, so one with another number has another name. None where nothing is left to be named so."""
    asked = {gone: re.findall(r'`([^`]+)`', names) for gone, names in ASKED.findall(said)}
    renamed = {}
    for path, gone in dict.fromkeys(GONE.findall(said)):
        text = room.text(f'crates/{crate}/{path}')
        names = renamed.setdefault(path, {})
        free = [name for name in asked.get(gone, []) if name not in names.values() and not re.search(rf'^(?:pub )?{re.escape(name)} :', text, re.M)]
        names.update((gone, name) for name in difflib.get_close_matches(gone, free, 1))
    pieces = []
    for path, names in renamed.items():
        text = new = room.text(f'crates/{crate}/{path}')
        for gone, name in [*names.items(), *((test_of(gone), test_of(name)) for gone, name in names.items())]:
            new = re.sub(rf"(?<![\w'+]){re.escape(gone)}(?![\w'])", name, new)
        pieces += [Piece(f'crates/{crate}/{path}', text, 0, len(text), new)] if new != text else []
    return Trial(crate, pieces) if pieces else None


def not_built(said):
    return 'error[' in said


def mistakes(crate, said):
    """The places that the compiler complains of: path and number of the line."""
    return [(f'crates/{crate}/{path}', int(line) - 1) for path, line in MISTAKE.findall(said)]


def proved(said):
    return re.search(r'^logic=proved ', said, re.M) is not None


def proved_functions(said):
    return {full_name(name.split('::')) for name, what in OF_FUNCTION.findall(said) if what == 'proved'}


def failing_facts(said):
    """The functions in which a fact does not hold, each with the first line that says so, and the lemmas; not those whose proof only does not fit, or
    that only rest on something that was not proved. Goals that a proof says nothing of are told before the line of their function; they count where no
    answer of that proof is left over."""
    found, misfits, open_goal = {}, set(), None
    for line in said.split('\n'):
        own, lemma, function = OWN_FACT.match(line), LEMMA.match(line), OF_FUNCTION.match(line)
        if own or lemma:
            name = full_name(own.group(1).split('/')) if own else lemma.group(1)
            if any(words in line for words in OTHER_SHAPE):
                misfits.add(name)
            else:
                found.setdefault(name, line)
        elif OPEN_GOAL.match(line):
            open_goal = open_goal or line
        elif function:
            name = full_name(function.group(1).split('::'))
            if name not in misfits and (open_goal or '`search` did not prove' in function.group(2)):
                found.setdefault(name, open_goal or line)
            open_goal = None
    return found
