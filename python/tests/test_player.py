"""bindings/play.py, by which the stories are played in Python: bad lines (docs/FORMATS.md, play), and what was seen."""
from __future__ import annotations

import os
import pathlib
import subprocess
import sys

import pytest

PACKAGE = pathlib.Path(__file__).parents[1]
PLAY = PACKAGE.parent / "bindings" / "play.py"
SCRIPTS = [  # a script, what is printed, what was seen
    ("idle 4611686018427387904\nA new\nA new\n", "A new 1\nA new 2\n", "status 0 Ok 2\n"),
    ("A begin 9 - -\n", "A refused 2\n", "status 2 UnknownDialogue 1\n"),
    ("A rawfrom - FF", "A dropped badmessage\n", "kind 17 Dropped 1\nstatus 0 Ok 1\n"),
    ("idle 4611686018427387905\nA new\n", "line 1 bad\n", None),
    ("#\nidle 01\n", "line 2 bad\n", None),
    ("A new\nidle 1\n", "A new 1\nline 2 bad\n", None),
    ("A new\nA beginto 1 " + "00" * 256 + " - -\n", "A new 1\nline 2 bad\n", None),
    ("A rawfrom " + "00" * 256 + " FF\n", "line 1 bad\n", None),
    ("A new\n\nA open 0 1 1 1\n", "A new 1\nline 3 bad\n", None),
    ("A open 1 65536 1 1\n", "line 1 bad\n", None),
    ("A open 1 1 4294967296 1\n", "line 1 bad\n", None),
    ("A open 1 1 1 0\n", "line 1 bad\n", None),
    ("A open 1 1 1 one\n", "line 1 bad\n", None),
]


@pytest.mark.parametrize(("script", "printed", "seen"), SCRIPTS)
def test_a_script(script: str, printed: str, seen: str | None, tmp_path: pathlib.Path) -> None:
    story, counts = tmp_path / "story.play", tmp_path / "seen"
    story.write_text(script)
    command = [sys.executable, str(PLAY), str(story), str(counts)]
    environment = {**os.environ, "PYTHONPATH": str(PACKAGE)}
    ran = subprocess.run(command, capture_output=True, text=True, timeout=50, env=environment)
    assert (ran.stdout, ran.stderr, ran.returncode) == (printed, "", 0 if seen else 1)
    assert (counts.read_text() if counts.exists() else None) == seen
