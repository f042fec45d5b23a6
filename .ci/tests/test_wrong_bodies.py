"""Tests of the command that tries wrong bodies, with stand-ins for `rt` and for the toolchain's prover."""

import os
import shutil
import sys

from stand_in import Case

# Says where the toolchain is, and builds a library: its file holds the time. A file `fails` beside it has no library proved.
RT = """#!/bin/sh
here=${0%/*}
[ "$1" = doc ] && { echo "$here/START-HERE.md"; exit; }
echo "${PWD##*/} $*" >>"$here/calls"
[ ! -e "$here/fails" ] || exit 1
mkdir -p out/rlib/${PWD##*/}.rlib
"""

# Proves the functions named by --only, each by the word of its body: `wrong` has its own answers refused, `open` has a goal that no
# search closes, `lost` has an answer that rests on what it calls, `renamed` one that names what is gone, `unread` can't be read.
# What calls a function that isn't proved has no proof, and what a function calls is proved too.
PROVER = """#!{python}
import os, re, sys
words = sys.argv[1:]
named = lambda flag: [b for a, b in zip(words, words[1:]) if a == flag]
name, only = named("--crate-name")[0], named("--only")
with open(os.environ["HERE"] + "/checks", "a") as file:
    print(name, *sorted(it.split("::")[-1] for it in only), file=file)
bodies = {{}}
for part in ("part", "deep/inner"):
    with open(f"src/{{part}}.rt") as file:
        for function, body in re.findall(r"fn (\\w+)\\(\\) {{ ([^}}]*) }}", file.read()):
            bodies[function] = (part.replace("/", "::"), body.split())
said = {{}}
def prove(function):
    module, body = bodies[function]
    where = f"./proofs/{{module.replace('::', '/')}}/{{function}}/Answers.antt:1:1"
    calls = [it for it in body[1:] if not prove(it)]
    because = f"it calls `{{calls[0]}}`, which is not proved" if calls else ""
    if body[0] == "wrong":
        print(f"{{where}}: error: the two types differ")
        status = "not proved" + ("; " + because if calls else "")
    elif body[0] == "renamed":
        print(f"{{where}}: error: record `After` has no field `first`")
        status = "not proved"
    elif body[0] == "lost" and calls:
        print(f"{{where}}: error: a declaration was not admitted")
        status = "not proved; " + because
    elif calls:
        status = "no proof: " + because
    elif body[0] == "open":
        status = f"no proof: expected answers in {{where}}; `search` did not prove `returns`"
    else:
        status = "proved"
    said[f"fn {{name}}::{{module}}::{{function}}"] = status
    return status == "proved"
for module, body in bodies.values():
    if body[0] == "unread":
        sys.exit(print(f"./src/{{module}}.rt:1:1: error: `x` is not in scope"))
for it in only:
    module, _, function = it.rpartition("::")
    if function not in bodies or not bodies[function][0].endswith(module):
        sys.exit(print(f"rattle: error: `{{name}}` has no function `{{it}}`"))
    prove(function)
for function, status in said.items():
    print(f"{{function}}: {{status}}")
"""

PART = "fn first() { right }\nfn second() { right }\nfn third() { right first }\n"
INNER = "fn inner() { right }\n"


class TriesWrongBodies(Case):
    def setUp(self):
        super().setUp()
        self.copy(".ci/wrong-bodies")
        self.write(f"{self.rt}/rt", RT, mode=0o755)
        self.write(f"{self.rt}/bin/rattle", PROVER.format(python=sys.executable), mode=0o755)
        self.write(f"{self.top}/crates/low/src/part.rt", PART)
        self.write(f"{self.top}/crates/low/src/deep/inner.rt", INNER)
        for folder in ("must-fail", "wrong-bodies", "more-wrong-bodies"):
            shutil.rmtree(f"{self.top}/crates/base/{folder}")
        os.makedirs(f"{self.top}/crates/base/out/rlib/base.rlib")

    def edit(self, name, body, file="src/part.rt", more="", folder="wrong-bodies"):
        """Writes an edit by which a function has this body."""
        of = {"third": "right first"}.get(name, "right")
        text = f"file: {file}\nold: fn {name}() {{ {of} }}\nnew: fn {name}() {{ {body} }}\n{more}"
        self.write(f"{self.top}/crates/low/{folder}/{name}_{body.replace(' ', '_')}.edit", text)

    def try_all(self, *words):
        path = f"{self.rt}/checks"
        if os.path.exists(path):
            os.remove(path)
        ended = self.call(*words, launcher=[sys.executable, f"{self.top}/.ci/wrong-bodies"], HERE=self.rt)
        self.checks = self.read(path).splitlines() if os.path.exists(path) else []
        return ended

    def assert_ends(self, line, *words):
        ended = self.try_all(*words)
        self.assertEqual(ended.stdout.decode().splitlines()[-1:], [line], ended.stderr)
        self.assertEqual(ended.returncode, 0 if line.endswith(" 0 failed") else 1)
        return ended.stdout.decode()

    def assert_stops(self, why, *words):
        ended = self.try_all(*words)
        self.assertIn(why, ended.stderr)
        self.assertEqual((ended.stdout, ended.returncode, self.checks), (b"", 1, []))

    def test_bodies_in_different_functions_are_tried_by_one_check(self):
        self.edit("first", "wrong")
        self.edit("second", "open")
        self.edit("inner", "wrong", file="src/deep/inner.rt")
        said = self.assert_ends("3 passed, 0 failed")
        self.assertIn("low/first_wrong.edit: refused, as it must be\n", said)
        self.assertEqual(self.checks, ["low first inner second"])
        self.assertEqual(self.calls(), [])

    def test_a_body_that_is_proved_failed(self):
        self.edit("first", "lazy")
        self.edit("second", "wrong")
        said = self.assert_ends("1 passed, 1 failed")
        self.assertIn("low/first_lazy.edit: NOT REFUSED: part::first: proved\n", said)
        self.assertIn("low/second_wrong.edit: refused", said)

    def test_an_unsafe_function_is_found(self):
        self.write(f"{self.top}/crates/low/src/part.rt", PART + "unsafe fn last() { right }\n")
        self.edit("last", "wrong")
        self.assert_ends("1 passed, 0 failed")
        self.assertEqual(self.checks, ["low last"])

    def test_bodies_of_one_function_are_tried_apart(self):
        self.edit("first", "wrong")
        self.edit("first", "open")
        self.assert_ends("2 passed, 0 failed")
        self.assertEqual(self.checks, ["low first"] * 2)

    def test_bodies_of_one_text_are_tried_apart(self):
        self.edit("first", "wrong")
        text = "file: src/part.rt\nold: fn first() { right }\nnew: fn first() { wrong }\nrefused: part::third\n"
        self.write(f"{self.top}/crates/low/wrong-bodies/third.edit", text)
        self.assert_ends("1 passed, 1 failed")
        self.assertEqual(self.checks, ["low first", "low third"])

    def test_a_body_hidden_by_another_is_tried_again(self):
        self.edit("first", "wrong")
        self.edit("third", "open first")
        self.assert_ends("2 passed, 0 failed")
        self.assertEqual(self.checks, ["low first third", "low third"])

    def test_a_body_with_an_answer_of_its_own_refused_is_not_hidden(self):
        self.edit("first", "wrong")
        self.edit("third", "wrong first")
        self.assert_ends("2 passed, 0 failed")
        self.assertEqual(self.checks, ["low first third"])

    def test_a_body_refused_for_what_it_calls_alone_failed(self):
        for body in ("lazy first", "lost first"):
            with self.subTest(body):
                shutil.rmtree(f"{self.top}/crates/low/wrong-bodies", ignore_errors=True)
                self.edit("first", "wrong")
                self.edit("third", body)
                self.assertIn("NOT REFUSED: part::third", self.assert_ends("1 passed, 1 failed"))

    def test_a_body_refused_for_a_name_alone_failed(self):
        self.edit("first", "renamed")
        self.edit("second", "wrong")
        said = self.assert_ends("1 passed, 1 failed")
        self.assertIn("low/first_renamed.edit: refused only since its proof names what the edit took away", said)

    def test_a_body_that_cannot_be_read_failed(self):
        self.edit("first", "unread")
        self.edit("second", "wrong")
        said = self.assert_ends("1 passed, 1 failed")
        self.assertIn("low/first_unread.edit: the prover can't read it", said)

    def test_the_function_that_is_refused_may_be_named(self):
        self.write(f"{self.top}/crates/low/specs/Lib.antt", "spec\n")
        text = "file: specs/Lib.antt\nold: spec\nnew: other\nfile: src/part.rt\nold: fn second() { right }\nnew: fn second() { wrong }\n"
        self.write(f"{self.top}/crates/low/wrong-bodies/of_specs.edit", f"{text}refused: part::second\n")
        self.edit("first", "wrong")
        self.assert_ends("2 passed, 0 failed")
        self.assertEqual(self.checks, ["low first", "low second"])

    def test_a_function_that_is_not_there_failed(self):
        self.edit("first", "wrong", more="refused: part::fourth\n")
        self.assertIn("the prover spoke of 0 functions part::fourth", self.assert_ends("0 passed, 1 failed"))

    def test_an_edit_that_changes_nothing_stops_it(self):
        folder = f"{self.top}/crates/low/wrong-bodies"
        for text, why in (
            ("file: src/part.rt\n", b"low/bad.edit: changes nothing"),
            ("file: src/part.rt\nold: right\nnew: wrong\n", b"low/bad.edit: its text stands in src/part.rt 3 times, and not once"),
            ("file: src/part.rt\nold: left\nnew: wrong\n", b"low/bad.edit: its text stands in src/part.rt 0 times, and not once"),
            ("file: src/part.rt\nolder: first\nnew: wrong\n", b"low/bad.edit: no line of an edit begins 'older'"),
            ("file: specs/Lib.antt\nold: spec\nnew: wrong\n", b"low/bad.edit: no function is refused"),
        ):
            with self.subTest(text):
                self.write(f"{folder}/bad.edit", text)
                self.assert_stops(why)

    def test_libraries_are_built_where_the_gate_left_none(self):
        self.edit("first", "wrong")
        library = f"{self.top}/crates/base/out/rlib"
        changes = (
            lambda: os.rmdir(f"{library}/base.rlib"),
            lambda: self.set_age(f"{library}/base.rlib", 7200),
            lambda: self.write(f"{library}/stamp", "of a check"),
        )
        for change in changes:
            change()
            self.assert_ends("1 passed, 0 failed")
            self.assertEqual(self.calls(), ["base lib"])
            self.set_age(f"{library}/base.rlib", 0)

    def test_a_library_that_is_not_proved_stops_it(self):
        self.edit("first", "wrong")
        os.rmdir(f"{self.top}/crates/base/out/rlib/base.rlib")
        self.write(f"{self.rt}/fails", "")
        ended = self.try_all()
        self.assertIn(b"base: its library isn't proved", ended.stderr)
        self.assertEqual((ended.returncode, self.checks), (1, []))

    def test_all_are_tried_where_it_is_asked(self):
        self.edit("first", "wrong")
        self.edit("second", "lazy", folder="more-wrong-bodies")
        self.edit("inner", "wrong", file="src/deep/inner.rt", folder="must-fail")
        self.assert_ends("1 passed, 0 failed")
        self.assertEqual(self.checks, ["low first"])
        self.assert_ends("2 passed, 1 failed", "--all")
        self.assertEqual(self.checks, ["low first inner second", "low second"])

    def test_one_that_is_not_tried_must_have_its_text(self):
        self.edit("first", "wrong")
        self.write(f"{self.top}/crates/low/more-wrong-bodies/bad.edit", "file: src/part.rt\nold: left\nnew: wrong\n")
        self.assert_stops(b"low/bad.edit: its text stands in src/part.rt 0 times, and not once")

    def test_crates_may_be_named(self):
        self.edit("first", "wrong")
        self.assert_ends("1 passed, 0 failed", "low", "base")
        self.assertEqual(self.checks, ["low first"])
        self.assert_stops(b"crates.txt has no crate lower", "lower")
