"""A dialogue at an engine."""
from __future__ import annotations

from ctypes import byref, c_uint64
from types import TracebackType
from typing import TYPE_CHECKING, Any

from . import _given
from ._given import Octets
from .errors import TcapError
from .values import AbortReason, Code, State, Termination, named

if TYPE_CHECKING:
    from .engine import Engine


class Dialogue:
    """A dialogue at an engine, by its identifier. Two of the same identifier at one engine are equal, and a copy of one
    is itself.

    As a context manager: where the block is left and the dialogue stands, it is aborted (TC-U-ABORT).

    Octets of `context` are the contents of an object identifier, those of `info` EXTERNALs one after the other, a
    parameter is one BER element. Each request may be refused by UnknownDialogue, and by BadArgument if an argument is
    out of its range.
    """

    __slots__ = ("_engine", "_id")
    __match_args__ = ("engine", "id")

    def __init__(self, engine: Engine, id: int) -> None:
        self._engine, self._id = engine, id

    @property
    def engine(self) -> Engine:
        """The engine."""
        return self._engine

    @property
    def id(self) -> int:
        """The identifier."""
        return self._id

    def __repr__(self) -> str:
        return f"Dialogue(id={self._id!r})"

    def __eq__(self, other: object) -> bool:
        return isinstance(other, Dialogue) and self._engine is other._engine and self._id == other._id

    def __hash__(self) -> int:
        return hash((id(self._engine), self._id))

    def __copy__(self) -> Dialogue:
        return self

    def __deepcopy__(self, memo: object) -> Dialogue:
        return self

    def state(self) -> int:
        """How far it is: a State, UNKNOWN where it doesn't stand, or the number that a newer library answers."""
        return named(State, self.engine._get("tcap_state_of", _given.u32("id", self.id)))

    def __enter__(self) -> Dialogue:
        """BadArgument: the engine is closed."""
        with self.engine._lock:
            self.engine._open()
        return self

    def __exit__(
        self, kind: type[BaseException] | None, error: BaseException | None, trace: TracebackType | None
    ) -> None:
        with self.engine._lock:  # so that no other thread ends the dialogue or closes the engine meanwhile
            if self.engine._engine is None or self.state() == State.UNKNOWN:
                return
            try:
                self.u_abort(0)  # the clock doesn't go back: at the moment at which it stands
            except TcapError:
                if error is None:
                    raise  # else what ended the block is told

    def _call(self, name: str, *arguments: Any) -> None:
        self.engine._call(name, _given.u32("id", self.id), *arguments)

    def _at(self, name: str, now_ms: int, *arguments: Any) -> None:
        self.engine._call(name, _given.moment(now_ms), _given.u32("id", self.id), *arguments)

    # ---- component handling: a component is queued, and the next request of dialogue handling sends it

    def invoke(
        self,
        invoke_id: int,
        operation: Code,
        parameter: Octets | None = None,
        *,
        timeout_ms: int,
        op_class: int = 1,
        linked_id: int | None = None,
    ) -> int:
        """TC-INVOKE request: its number, by which outputs name the invocation. `timeout_ms`: 1 to 2^62, from the moment
        at which it is sent. BadTimeout, BadOid, BadParameter, InvokeIdInUse, NumbersSpent, TooLong, OutOfMemory."""
        number = c_uint64()
        ids = _given.number("invoke_id", invoke_id, -128, 127), _given.identifier("linked_id", linked_id)
        which = _given.number("op_class", op_class, 1, 4), _given.code("operation", operation)
        with_it = _given.optional("parameter", parameter), _given.u64("timeout_ms", timeout_ms)
        self._call("tcap_invoke", *ids, *which, *with_it, byref(number))
        return number.value

    def _answer(self, name: str, invoke_id: int, code_name: str, code: Code | None, parameter: Octets | None) -> None:
        identifier = _given.number("invoke_id", invoke_id, -128, 127)
        self._call(name, identifier, _given.code(code_name, code), _given.optional("parameter", parameter))

    def result_l(self, invoke_id: int, operation: Code | None = None, parameter: Octets | None = None) -> None:
        """TC-RESULT-L request: the last or only result. `operation`: None where there is no parameter. WrongState,
        BadOid, BadParameter, TooLong, OutOfMemory."""
        self._answer("tcap_result_l", invoke_id, "operation", operation, parameter)

    def result_nl(self, invoke_id: int, operation: Code | None = None, parameter: Octets | None = None) -> None:
        """TC-RESULT-NL request: a result that others follow. As result_l."""
        self._answer("tcap_result_nl", invoke_id, "operation", operation, parameter)

    def u_error(self, invoke_id: int, error: Code, parameter: Octets | None = None) -> None:
        """TC-U-ERROR request: an Invoke of the peer failed. WrongState, BadOid, BadParameter, TooLong, OutOfMemory."""
        self._answer("tcap_u_error", invoke_id, "error", error, parameter)

    def u_reject(self, invoke_id: int | None, problem: int) -> None:
        """TC-U-REJECT request: a component of the peer is rejected, None where its identifier isn't known. WrongState,
        TooLong, OutOfMemory."""
        self._call("tcap_u_reject", _given.identifier("invoke_id", invoke_id), _given.number("problem", problem, 0, 895))

    def u_cancel(self, invoke_id: int) -> int:
        """TC-U-CANCEL request: an invocation of this side is given up: its number. NoSuchInvocation."""
        number = c_uint64()
        self._call("tcap_u_cancel", _given.number("invoke_id", invoke_id, -128, 127), byref(number))
        return number.value

    # ---- dialogue handling: sends what is queued. WrongState, BadOid, BadParameter, NoContext, TooLong, MomentTooLate,
    # OutOfMemory

    def uni(self, now_ms: int, to: Octets, *, context: Octets | None = None, info: Octets = b"") -> None:
        """TC-UNI request: a Unidirectional to an address, 0 to 255 octets, and the dialogue is over. NotClassFour."""
        self._at("tcap_uni", now_ms, _given.octets("to", to), byref(_given.portion(context, info)))

    def begin(self, now_ms: int, to: Octets, *, context: Octets | None = None, info: Octets = b"") -> None:
        """TC-BEGIN request: a Begin to an address, 0 to 255 octets, which the dialogue keeps."""
        self._at("tcap_begin", now_ms, _given.octets("to", to), byref(_given.portion(context, info)))

    def go_on(self, now_ms: int, *, context: Octets | None = None, info: Octets = b"") -> None:
        """TC-CONTINUE request. A context and user information only in the first answer to a Begin that has a context;
        where that answer names none, it has that of the Begin."""
        self._at("tcap_continue", now_ms, byref(_given.portion(context, info)))

    def end(
        self,
        now_ms: int,
        *,
        context: Octets | None = None,
        info: Octets = b"",
        termination: Termination = Termination.BASIC,
    ) -> None:
        """TC-END request: the dialogue is over, and each invocation that was open is told by ClosedInd. Of context and
        user information as go_on; none by a prearranged end."""
        how = _given.choice("termination", termination, Termination)
        self._at("tcap_end", now_ms, how, byref(_given.portion(context, info)))

    def u_abort(self, now_ms: int, reason: AbortReason = AbortReason.USER_SPECIFIC, info: Octets = b"") -> None:
        """TC-U-ABORT request: the dialogue is over, and each invocation that was open is told by ClosedInd. An Abort is
        sent if the peer knows the dialogue."""
        why = _given.choice("reason", reason, AbortReason)
        self._at("tcap_u_abort", now_ms, why, _given.octets("info", info))
