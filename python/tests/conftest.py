"""A test that hangs ends the run, with the lines at which it hung."""
from __future__ import annotations

import contextlib
import faulthandler
import os
from collections.abc import Iterator

import pytest

SECONDS = 60
_errors = 2


def pytest_configure(config: pytest.Config) -> None:
    """Keeps standard error as it is before each test's own is captured, if it is."""
    global _errors
    capturing = config.pluginmanager.getplugin("capturemanager")
    with capturing.global_and_fixture_disabled() if capturing else contextlib.nullcontext():
        _errors = os.dup(2)


@pytest.fixture(autouse=True)
def bounded() -> Iterator[None]:
    faulthandler.dump_traceback_later(SECONDS, exit=True, file=_errors)
    yield
    faulthandler.cancel_dump_traceback_later()
