//! The answer of a call: done, or a refusal with number and place.

#[derive(Clone, Copy, PartialEq, Eq, Debug)]
pub struct Answer {
    pub number: usize,
    pub place: usize,
}

/// Done is number 0 with place 0.
pub const DONE: Answer = Answer { number: 0, place: 0 };

/// What a question learned, or the first no.
pub type Asked<T> = Result<T, Answer>;

pub fn refuse<T>(number: usize, place: usize) -> Asked<T> {
    Err(Answer { number, place })
}

/// The answer of a list of questions that learned nothing else.
pub fn answer_of<T>(asked: &Asked<T>) -> Answer {
    match asked {
        Ok(_) => DONE,
        Err(refusal) => *refusal,
    }
}
