"""A VLR and an HLR in one program: updateLocation, asked and answered. `python3 loop.py` prints what was told."""
import tcap
from tcap import BeginInd, EndInd, InvokeInd, LCancelInd, Local, ResultLInd, Send

UPDATE_LOCATION = Local(2)
NETWORK_LOC_UP = tcap.oid("0.4.0.0.1.0.1.3")


def serve(engine: tcap.Engine, now_ms: int) -> list[tuple[bytes, bytes]]:
    """Takes all that waits: prints what is told, answers what is asked, and returns what is to be sent."""
    to_send = []
    for output in engine:
        match output:
            case Send(address=address, message=message):
                to_send.append((address, message))
            case BeginInd(dialogue=dialogue, context=context):
                print("begin", dialogue.id, context.hex() if context else "-")
            case InvokeInd(dialogue=tcap.Dialogue() as dialogue, invoke_id=invoke_id, code=code) if code == UPDATE_LOCATION:
                dialogue.result_l(invoke_id, UPDATE_LOCATION, b"\x04\x01\xbb")  # while outputs wait
                dialogue.end(now_ms, context=NETWORK_LOC_UP)
            case ResultLInd(number=number, parameter=parameter):
                print("result of", number, parameter.hex() if parameter else "-")
            case LCancelInd(number=number):
                print("no result of", number)
            case EndInd(dialogue=dialogue):
                print("end", dialogue.id)
            case _:
                print(output)
    return to_send


def main() -> None:
    now_ms = 0  # by any clock that doesn't go back
    with tcap.Engine(max_message=255) as vlr, tcap.Engine(max_message=255) as hlr:
        with vlr.dialogue() as dialogue:  # left while it stands: it is aborted
            number = dialogue.invoke(1, UPDATE_LOCATION, b"\x04\x01\xaa", timeout_ms=5000)
            dialogue.begin(now_ms, b"hlr", context=NETWORK_LOC_UP)
            print("asked as", number)
            for _, message in serve(vlr, now_ms):
                hlr.receive(now_ms, b"vlr", message)
            for _, message in serve(hlr, now_ms):
                vlr.receive(now_ms, b"hlr", message)
            serve(vlr, now_ms)
            try:
                dialogue.go_on(now_ms)
            except tcap.UnknownDialogue as error:
                print(error)


if __name__ == "__main__":
    main()
