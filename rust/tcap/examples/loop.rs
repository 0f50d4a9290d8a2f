//! A VLR and an HLR in one program: updateLocation, asked and answered. `cargo run --example loop` prints what was told.

use tcap::{Code, Engine, Error, Invoke, Limits, Output, Portion, Waiting};

const UPDATE_LOCATION: Code<'_> = Code::Local(2);
const NETWORK_LOC_UP: &[u8] = &[0x04, 0x00, 0x00, 0x01, 0x00, 0x01, 0x03]; // 0.4.0.0.1.0.1.3

/// Takes all that waits: prints what is told, answers what is asked, and returns what is to be sent.
fn serve(engine: &mut Engine, now_ms: u64) -> Result<Vec<Vec<u8>>, Error> {
    let mut to_send = Vec::new();
    while let Some(Waiting { engine, output, .. }) = engine.next_output() {
        match output {
            Output::Send { message, .. } => to_send.push(message.to_vec()),
            Output::BeginInd { dialogue, portion, .. } => println!("begin {} {:02x?}", dialogue, portion.context),
            Output::InvokeInd { dialogue: Some(dialogue), invoke_id, code: UPDATE_LOCATION, .. } => {
                engine.result_l(dialogue, invoke_id, Some(UPDATE_LOCATION), Some(b"\x04\x01\xbb"))?; // while outputs wait
                engine.end(now_ms, dialogue, Portion::of(NETWORK_LOC_UP))?;
            }
            Output::ResultLInd { number, parameter, .. } => println!("result of {} {:02x?}", number, parameter),
            Output::LCancelInd { number, .. } => println!("no result of {}", number),
            Output::EndInd { dialogue, .. } => println!("end {}", dialogue),
            other => println!("{:?}", other),
        }
    }
    Ok(to_send)
}

fn main() -> Result<(), Error> {
    let limits = Limits { max_message: 255, ..Limits::default() };
    let (mut vlr, mut hlr) = (Engine::open(&limits)?, Engine::open(&limits)?);
    let now_ms = 0; // by any clock that doesn't go back

    let dialogue = vlr.new_dialogue()?;
    let number = vlr.invoke(dialogue, &Invoke::new(1, UPDATE_LOCATION, 5000).with(b"\x04\x01\xaa"))?;
    vlr.begin(now_ms, dialogue, b"hlr", Portion::of(NETWORK_LOC_UP))?;
    println!("asked as {}", number);
    for message in serve(&mut vlr, now_ms)? {
        hlr.receive(now_ms, b"vlr", &message)?;
    }
    for message in serve(&mut hlr, now_ms)? {
        vlr.receive(now_ms, b"hlr", &message)?;
    }
    serve(&mut vlr, now_ms)?;
    if let Err(error) = vlr.go_on(now_ms, dialogue, Portion::default()) {
        println!("continue: {}", error);
    }
    Ok(())
}
