//! A host in Rust: prints as JSON what a script is made of, or why it is refused.
//!
//! usage: host FILE

use std::ffi::c_void;
use std::process::ExitCode;
use std::ptr::null_mut;

/// The `rhai_engine` of include/rhai_parser.h.
#[repr(C)]
struct Engine {
    held: *mut c_void,
}

/// The `rhai_answer` of include/rhai_parser.h.
#[repr(C)]
struct Answer {
    held: *mut c_void,
    text: *const u8,
    length: usize,
}

const OK: u32 = 0;
const REFUSED: u32 = 1;

unsafe extern "C" {
    fn rhai_engine_new_at(engine: &mut Engine) -> u32;
    fn rhai_engine_free_at(engine: &mut Engine);
    fn rhai_parse_at(
        engine: &mut Engine,
        text: *const u8,
        length: usize,
        kind: u32,
        answer: &mut Answer,
    ) -> u32;
    fn rhai_free_at(answer: &mut Answer);
}

impl Engine {
    /// A new engine; `Err` with the status if there is no memory for it.
    fn new() -> Result<Engine, u32> {
        let mut engine = Engine { held: null_mut() };
        // SAFETY: it is zero, and nobody else's.
        match unsafe { rhai_engine_new_at(&mut engine) } {
            OK => Ok(engine),
            status => Err(status),
        }
    }

    /// The tree of a script (`Ok`) or why it is refused (`Err`), both as JSON; `Err` with the status if there is no
    /// answer.
    fn parse(&mut self, text: &str) -> Result<Result<String, String>, u32> {
        let mut answer = Answer {
            held: null_mut(),
            text: null_mut(),
            length: 0,
        };
        // SAFETY: the engine was made, the answer is zero, and a text's pointer is valid for its length, and not null.
        let status = unsafe { rhai_parse_at(self, text.as_ptr(), text.len(), 0, &mut answer) };
        match status {
            OK => Ok(Ok(answer.to_text())),
            REFUSED => Ok(Err(answer.to_text())),
            status => Err(status),
        }
    }
}

impl Drop for Engine {
    fn drop(&mut self) {
        // SAFETY: it was made, and is freed once.
        unsafe { rhai_engine_free_at(self) }
    }
}

impl Answer {
    fn to_text(&self) -> String {
        // SAFETY: an answer has so many bytes there, until it is freed.
        let bytes = unsafe { std::slice::from_raw_parts(self.text, self.length) };
        String::from_utf8_lossy(bytes).into_owned()
    }
}

impl Drop for Answer {
    fn drop(&mut self) {
        // SAFETY: it is zero or was made, and is freed once.
        unsafe { rhai_free_at(self) }
    }
}

fn main() -> ExitCode {
    let name = std::env::args().nth(1).expect("usage: host FILE");
    let text = std::fs::read_to_string(&name).expect("a file of text");
    match Engine::new().and_then(|mut engine| engine.parse(&text)) {
        Ok(Ok(tree)) => println!("{tree}"),
        Ok(Err(refusal)) => {
            println!("{refusal}");
            return ExitCode::from(1);
        }
        Err(status) => {
            eprintln!("host: no answer, status {status}");
            return ExitCode::from(2);
        }
    }
    ExitCode::SUCCESS
}
