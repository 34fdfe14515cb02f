//! What a call gave back, in the second program's terms.

use second::log::Stop;
use second::state::Refusal;
use second::trace::{Answer, Outcome};

pub fn told(result: Result<u32, Refusal>) -> Outcome {
    stored(result.map(|value| (false, 0, value as usize)))
}

/// Of cut, the stores made and the value told.
pub fn stored(result: Result<(bool, usize, usize), Refusal>) -> Outcome {
    let (answer, stores, value) = match result {
        Ok((false, stores, value)) => (Answer::Done, stores, value),
        Ok((true, stores, value)) => (Answer::Cut, stores, value),
        Err(number) => (Answer::Refused(number), 0, 0),
    };
    Outcome {
        stores,
        ..Outcome::told(answer, value as u32)
    }
}

/// The same of a restart, and why the log ended.
pub fn restarted(result: Result<(bool, usize, usize), Refusal>, stop: Option<Stop>) -> Outcome {
    Outcome {
        stop,
        ..stored(result)
    }
}

/// The log end and the csn that the first groups reach: value and stores.
pub fn reached(result: Result<(usize, u32), Refusal>) -> Outcome {
    stored(result.map(|(end, csn)| (false, csn as usize, end)))
}

pub fn part(part: &[u8]) -> Outcome {
    Outcome::told(Answer::Part(part.len()), 0)
}

pub fn yes_or_no(yes: bool) -> Outcome {
    Outcome::told(if yes { Answer::Yes } else { Answer::No }, 0)
}
