//! The dialogues of bindings/cost.c through the crate: cost DIALOGUES.

#![forbid(unsafe_code)]

use tcap::{Code, Engine, Error, Invoke, Limits, Output, Portion, Waiting};

const PARAMETER: &[u8] = &[4, 1, 0xaa];
const OPERATION: Code<'_> = Code::Local(2);

/// Takes what waits at one engine; messages go to the other, and each Invoke is answered. How many results came.
fn serve(engine: &mut Engine, name: &[u8], peer: &Engine) -> Result<u64, Error> {
    let mut results = 0;
    while let Some(Waiting { engine, output, .. }) = engine.next_output() {
        match output {
            Output::Send { message, .. } => peer.receive(0, name, message)?,
            Output::InvokeInd { dialogue: Some(dialogue), invoke_id, .. } => {
                engine.result_l(dialogue, invoke_id, Some(OPERATION), Some(PARAMETER))?;
                engine.end(0, dialogue, Portion::default())?;
            }
            Output::ResultLInd { .. } => results += 1,
            _ => {}
        }
    }
    Ok(results)
}

fn main() -> Result<(), Error> {
    let count = std::env::args().nth(1).and_then(|word| word.parse().ok()).unwrap_or(0);
    let limits = Limits { idle_ms: 0, ..Limits::default() };
    let (mut vlr, mut hlr) = (Engine::open(&limits)?, Engine::open(&limits)?);
    let mut results = 0;
    for _ in 0..count {
        let dialogue = vlr.new_dialogue()?;
        vlr.invoke(dialogue, &Invoke::new(1, OPERATION, 5000).with(PARAMETER))?;
        vlr.begin(0, dialogue, b"hlr", Portion::default())?;
        serve(&mut vlr, b"vlr", &hlr)?;
        serve(&mut hlr, b"hlr", &vlr)?;
        results += serve(&mut vlr, b"vlr", &hlr)?;
    }
    println!("{}", results);
    Ok(())
}
