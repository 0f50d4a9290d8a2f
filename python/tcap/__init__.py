"""Transaction Capabilities (ITU-T Q.771 to Q.774), by libtcap.

    import tcap
    from tcap import BeginInd, InvokeInd, Local, ResultLInd, Send

    with tcap.Engine(max_message=255) as engine:
        with engine.dialogue() as dialogue:
            number = dialogue.invoke(1, Local(2), b"\\x04\\x01\\xaa", timeout_ms=5000)
            dialogue.begin(now_ms, b"hlr")
            for output in engine:
                match output:
                    case Send(address=address, message=message): ...
"""
from .codec import TransactionIds, canon, check, front, oid, oid_text, show
from .dialogue import Dialogue
from .engine import Engine, library_version, status_text
from .errors import (
    BadArgument,
    BadOid,
    BadParameter,
    BadTimeout,
    DialogueIdsSpent,
    DialoguesFull,
    InvokeIdInUse,
    MomentTooLate,
    NoContext,
    NoSuchInvocation,
    NotClassFour,
    NumbersSpent,
    OutOfMemory,
    TcapError,
    TooLong,
    UnknownDialogue,
    WrongState,
)
from .outputs import (
    Aare,
    Aarq,
    Abrt,
    Audt,
    BeginInd,
    ClosedInd,
    ContinueInd,
    Dropped,
    EndInd,
    Foreign,
    InvokeInd,
    LCancelInd,
    LRejectInd,
    OtherOutput,
    OtherPdu,
    Output,
    PAbortInd,
    Pdu,
    ResultLInd,
    ResultNLInd,
    RRejectInd,
    Send,
    Told,
    UAbortInd,
    UErrorInd,
    UniInd,
    URejectInd,
)
from .values import (
    AbortCause,
    AbortReason,
    Code,
    Diagnostic,
    DropCause,
    Global,
    Local,
    Problem,
    State,
    Status,
    Termination,
)

__version__ = "0.1.0"

__all__ = [
    "Aare", "Aarq", "AbortCause", "AbortReason", "Abrt", "Audt", "BadArgument", "BadOid", "BadParameter", "BadTimeout",
    "BeginInd", "ClosedInd", "Code", "ContinueInd", "Diagnostic", "Dialogue", "DialogueIdsSpent", "DialoguesFull",
    "DropCause", "Dropped", "EndInd", "Engine", "Foreign", "Global", "InvokeIdInUse", "InvokeInd", "LCancelInd",
    "LRejectInd", "Local", "MomentTooLate", "NoContext", "NoSuchInvocation", "NotClassFour", "NumbersSpent",
    "OtherOutput", "OtherPdu", "OutOfMemory", "Output", "PAbortInd", "Pdu", "Problem", "RRejectInd", "ResultLInd",
    "ResultNLInd", "Send", "State", "Status", "TcapError", "Termination", "TooLong", "Told", "TransactionIds", "UAbortInd",
    "UErrorInd", "URejectInd", "UniInd", "UnknownDialogue", "WrongState", "canon", "check", "front", "library_version",
    "oid", "oid_text", "show", "status_text",
]  # fmt: skip
