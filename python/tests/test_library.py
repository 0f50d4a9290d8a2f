"""Which library is loaded, which is refused, and what it says of itself and of its statuses."""
from __future__ import annotations

import ctypes

import pytest

import tcap
from tcap import _c


class Stub:
    """A library of a version, each call of which answers that."""

    def __init__(self, version: int) -> None:
        self.version = version

    def __getattr__(self, name: str) -> object:
        if name == self.without:
            raise AttributeError(name)
        return type(name, (), {"__call__": lambda _: self.version})()

    without = ""


@pytest.mark.parametrize(
    ("version", "is_enough"),
    [(0x0000FF, False), (0x000100, True), (0x000101, True), (0x00FFFF, True), (0x010000, False), (0x010100, False)],
)
def test_a_library_of_this_version_to_the_next_major(
    version: int, is_enough: bool, monkeypatch: pytest.MonkeyPatch
) -> None:
    library = Stub(version)
    monkeypatch.setattr(ctypes, "PyDLL", lambda name: library)
    if is_enough:
        assert _c._load() is library  # type: ignore[comparison-overlap]
    else:
        with pytest.raises(ImportError, match=f"{version:#08x}"):
            _c._load()


@pytest.mark.parametrize(("variable", "name"), [(None, "libtcap.so.0"), ("/opt/libtcap.so", "/opt/libtcap.so")])
def test_the_name_of_the_library(variable: str | None, name: str, monkeypatch: pytest.MonkeyPatch) -> None:
    monkeypatch.delenv("TCAP_LIBRARY", raising=False)
    if variable:
        monkeypatch.setenv("TCAP_LIBRARY", variable)
    asked: list[str] = []

    def load(name: str) -> Stub:
        asked.append(name)
        return Stub(0x000100)

    monkeypatch.setattr(ctypes, "PyDLL", load)
    _c._load()
    assert asked == [name]


def test_a_library_that_is_none_is_an_import_error(monkeypatch: pytest.MonkeyPatch) -> None:
    monkeypatch.setenv("TCAP_LIBRARY", "/nowhere/libtcap.so")
    with pytest.raises(ImportError, match="/nowhere/libtcap.so"):
        _c._load()
    monkeypatch.setattr(ctypes, "PyDLL", lambda name: Stub(0x000100))
    monkeypatch.setattr(Stub, "without", "tcap_due")
    with pytest.raises(ImportError, match="tcap_due"):
        _c._load()


def test_what_the_library_says() -> None:
    assert tcap.library_version() >= (0, 1, 0)
    assert all(tcap.status_text(status) for status in tcap.Status)


def test_each_class_has_its_status() -> None:
    from tcap.errors import CLASSES, refusal

    assert set(CLASSES) == set(tcap.Status) - {tcap.Status.OK}
    for status in CLASSES:  # by the same words, which names.py compares with tcap.h
        error = refusal(status, "")
        assert (error.status, type(error).__name__.lower()) == (status, tcap.Status(status).name.replace("_", "").lower())
    newer = refusal(99, "of a newer library")
    assert (type(newer), newer.status) == (tcap.TcapError, 99)
