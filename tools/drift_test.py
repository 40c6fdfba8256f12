#!/usr/bin/env python3
"""Tests the scripts that look for texts which no longer fit the source: drift_test.py

Each test plants one mistake in a copy of the texts and sources. The script has to end with status 1 and name the mistake. Over the
copy without a mistake each script has to end with status 0.
"""
import shutil
import subprocess
import sys
import tempfile
import unittest
from pathlib import Path

ROOT = Path(__file__).resolve().parent.parent
LEFT_OUT = shutil.ignore_patterns(".git", "out", "proofs", "dist", "rec", "__pycache__")
# The script, a file, what stands there, what stands there with the mistake, and words of the output.
MISTAKES = [
    ("links.py", "README.md", "(docs/TESTING.md", "(docs/TESTS.md", "docs/TESTS.md"),
    ("links.py", "README.md", "(CHANGELOG.md)", "(CHANGELOG.md#no-such-part)", "no such heading"),
    ("links.py", "docs/EVIDENCE.md", "`tools/blocks.py`", "`tools/block.py`", "tools/block.py: no such file"),
    ("links.py", "docs/ARCHITECTURE.md", "`bidi_play/playing.rt`", "`bidi_play/player.rt`", "bidi_play/player.rt: no such file"),
    ("links.py", "docs/ARCHITECTURE.md", "Line 11 of `examples", "Line 12 of `examples", "line 12 has no browsingContext.navigate"),
    ("limits.py", "docs/THEOREMS.md", "At most 1,000,000,000 steps", "At most 1,000,000 steps", "not there: At most 1,000,000,000 steps"),
    ("limits.py", "docs/EVIDENCE.md", "For 400 random plays", "For 500 random plays", "not there: For 400 random plays"),
    ("limits.py", "docs/FORMATS.md", "| active sessions | 8 |", "| active sessions | 9 |", "active sessions: FORMATS.md has 9, the code 8"),
    ("limits.py", "docs/FORMATS.md", "| active sessions | 8 |", "| tabs | 8 |", "tabs: not in the table"),
    ("limits.py", "crates/bidi_contexts/src/limits.rt", "MOST_CONTEXTS: usize = 1024", "MOST_CONTEXTS: usize = 1023", "live contexts"),
    ("profile.py", "docs/FORMATS.md", "StackTrace = { callFrames: [*StackFrame] }", "StackTrace = { callFrames: [+StackFrame] }", "StackTrace"),
    ("profile.py", "docs/FORMATS.md", "| session.end | ", "| session.stop | ", "session.stop"),
    ("clauses.py --missing", "crates/bidi_why/src/conversing.rt", "    // A fault says what was read and written before it.\n", "",
     "explain_both: `ensures err`"),
    ("clauses.py --check", "crates/bidi_contexts/src/users.rt", "result ≡ ", "result ≢ ", "docs/CLAUSES.md is not what its script makes"),
    ("definitions.py --check", "crates/bidi_why/specs/Counting.antt", "most_causes = 1000", "most_causes = 1001", "docs/DEFINITIONS.md is not what"),
    ("theorems.py --check", "docs/THEOREMS.md", "pub said : CanBeWritten l", "pub said : CanBeRead l", "not as in the source"),
    ("theorems.py --check", "docs/THEOREMS.md", "`an_event_goes_to_every_session`", "`an_event_goes_to_each_session`", "is nowhere"),
    ("edits.py --check", "crates/bidi_why/src/ids.rt", "Ok(Kept::Command(id, method, number))", "Ok(Kept::Command(id, method, 0))", "0 times in its file"),
    ("edits.py --check", "tools/edits/bidi_why/tells_nothing_of_a_stray_answer.edit", "conversation.rt", "talk.rt", "there is no "),
    ("grammars.py --check", "rules/draft.cddl", "js-uint = 0..9007199254740991", "js-uint = 0..9007199254740992", "draft.rt is not rules/draft.cddl"),
    ("picture.py --check", "crates.txt", "# Servers", "# Services", "another picture"),
]


def run(top, words):
    """The status of a script over a copy, and all that it writes."""
    script, *options = words.split()
    ran = subprocess.run([sys.executable, top / "tools" / script, *options], cwd=top, capture_output=True, text=True)
    return ran.returncode, ran.stdout + ran.stderr


class Drift(unittest.TestCase):
    @classmethod
    def setUpClass(cls):
        cls.room = tempfile.TemporaryDirectory()
        cls.top = Path(cls.room.name) / "copy"
        shutil.copytree(ROOT, cls.top, ignore=LEFT_OUT, symlinks=True)

    @classmethod
    def tearDownClass(cls):
        cls.room.cleanup()

    def test_nothing_is_said_without_a_mistake(self):
        for words in sorted({it[0] for it in MISTAKES}):
            with self.subTest(words):
                status, said = run(self.top, words)
                self.assertEqual(status, 0, said)

    def test_each_mistake_is_found(self):
        for words, name, right, wrong, wanted in MISTAKES:
            with self.subTest(f"{words}: {name}: {wrong.strip()}"):
                path = self.top / name
                text = path.read_text()
                self.assertTrue(right in text, f"{name} has no {right}")
                path.write_text(text.replace(right, wrong, 1))
                status, said = run(self.top, words)
                path.write_text(text)
                self.assertEqual(status, 1, said)
                self.assertIn(wanted, said)

    def test_a_mistyped_option_is_refused(self):
        for script in sorted({it[0].split()[0] for it in MISTAKES}):
            with self.subTest(script):
                status, said = run(self.top, f"{script} --chek")
                self.assertEqual(status, 2, said)
                self.assertIn(f"usage: {script}", said)


if __name__ == "__main__":
    unittest.main()
