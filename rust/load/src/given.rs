//! The result of a call, in one form for both implementations.

use reference::refusal::Sheet;
use sitgurp::Named;

/// The answer of any call.
#[derive(Clone, Debug, PartialEq, Eq)]
pub enum Answer {
    Value(usize),
    Agree,
    Differ(usize),
    /// A sheet's length and the layers of its net.
    Layered(usize, usize),
    /// Which of two sheets, counted from 0, has the returned part at its front, and the part's length.
    Part(Option<usize>, usize),
    /// The earliest and the latest settling, bit for bit.
    Settling(u64, u64),
    /// A number of trees.
    Count(u64),
    /// Every group's number of classes.
    Counts(Vec<usize>),
    /// The lister's turns: where a line begins and how long it is, or that none is left.
    Turns(Vec<Option<(usize, usize)>>),
    /// A sheet's length and the set of changed gates.
    Kept(usize, u64),
    /// A group's mark, or nothing if the group is not reached.
    Mark(Option<u8>),
    /// What a job answered before the last question, and its last answer.
    Job(Vec<Answer>, Box<Answer>),
    Refused {
        number: usize,
        place: usize,
        named: Named,
    },
}

impl Answer {
    pub fn of_proved<T>(
        answer: Result<T, sitgurp::Refusal>,
        accepted: impl FnOnce(T) -> Answer,
    ) -> Answer {
        match answer {
            Ok(value) => accepted(value),
            Err(refusal) => Answer::Refused {
                number: refusal.number,
                place: refusal.place,
                named: refusal.named,
            },
        }
    }

    pub fn of_second<T>(
        answer: Result<T, reference::Refusal>,
        accepted: impl FnOnce(T) -> Answer,
    ) -> Answer {
        match answer {
            Ok(value) => accepted(value),
            Err(refusal) => Answer::Refused {
                number: usize::from(refusal.number),
                place: refusal.place as usize,
                named: match refusal.sheet {
                    Sheet::Net => Named::Net,
                    Sheet::Table => Named::Table,
                    Sheet::Arrivals => Named::Arrivals,
                    Sheet::Neither => Named::Neither,
                },
            },
        }
    }

    /// Returns the refusal's number, or 0 if the call is accepted.
    pub fn number(&self) -> usize {
        match self {
            Answer::Refused { number, .. } => *number,
            Answer::Job(_, last) => last.number(),
            _ => 0,
        }
    }
}

/// A call's answer, and the contents of its buffers afterwards.
#[derive(Clone, Debug, PartialEq, Eq)]
pub struct Given {
    pub answer: Answer,
    pub buffers: Vec<Vec<u8>>,
}

/// Describes how the two differ, if they do.
pub fn difference(proved: &Given, second: &Given) -> Option<String> {
    if proved.answer != second.answer {
        let (ours, theirs) = (&proved.answer, &second.answer);
        return Some(format!("answers: proved {ours:?}, second {theirs:?}"));
    }
    let pairs = proved.buffers.iter().zip(&second.buffers);
    for (buffer, (ours, theirs)) in pairs.enumerate() {
        if let Some(at) = (0..ours.len()).find(|&at| ours[at] != theirs[at]) {
            let (ours, theirs) = (ours[at], theirs[at]);
            return Some(format!(
                "byte {at} of buffer {buffer}: proved {ours}, second {theirs}"
            ));
        }
    }
    None
}

#[cfg(test)]
mod tests {
    use super::*;

    fn given(answer: Answer, buffers: &[&[u8]]) -> Given {
        let buffers = buffers.iter().map(|bytes| bytes.to_vec()).collect();
        Given { answer, buffers }
    }

    fn refused(place: usize, named: Named) -> Answer {
        Answer::Refused {
            number: 4,
            place,
            named,
        }
    }

    #[test]
    fn equals_do_not_differ() {
        let one = given(Answer::Value(3), &[b"ab", b""]);
        assert_eq!(difference(&one, &one.clone()), None);
    }

    #[test]
    fn every_part_of_an_answer_counts() {
        let answers = [
            Answer::Value(0),
            Answer::Value(4),
            Answer::Agree,
            Answer::Differ(4),
            Answer::Layered(4, 2),
            Answer::Layered(4, 3),
            Answer::Part(Some(0), 4),
            Answer::Part(Some(0), 0),
            Answer::Part(Some(1), 4),
            Answer::Part(None, 4),
            Answer::Settling(0, 4),
            Answer::Settling(4, 4),
            Answer::Settling(0, 1 << 63),
            Answer::Count(4),
            Answer::Count(0),
            Answer::Counts(vec![0, 2, 2, 2]),
            Answer::Counts(vec![0, 2, 2, 1]),
            Answer::Turns(vec![Some((4, 8)), None]),
            Answer::Turns(vec![Some((4, 8)), Some((4, 8))]),
            Answer::Kept(4, 2),
            Answer::Kept(4, 4),
            Answer::Kept(5, 2),
            Answer::Mark(None),
            Answer::Mark(Some(0)),
            Answer::Job(vec![], Box::new(Answer::Mark(None))),
            Answer::Job(vec![Answer::Value(0)], Box::new(Answer::Mark(None))),
            Answer::Job(vec![Answer::Value(0)], Box::new(Answer::Value(0))),
            refused(4, Named::Net),
            refused(4, Named::Table),
            refused(5, Named::Net),
        ];
        for (j, one) in answers.iter().enumerate() {
            for (k, other) in answers.iter().enumerate() {
                let (one, other) = (given(one.clone(), &[b"a"]), given(other.clone(), &[b"a"]));
                assert_eq!(difference(&one, &other).is_none(), j == k);
            }
        }
    }

    #[test]
    fn every_byte_of_every_buffer_counts() {
        let one = given(Answer::Agree, &[b"abc", b"de"]);
        for (buffer, at) in [(0, 0), (0, 2), (1, 0), (1, 1)] {
            let mut other = one.clone();
            other.buffers[buffer][at] ^= 0x80;
            let found = difference(&one, &other).expect("a difference");
            assert!(found.starts_with(&format!("byte {at} of buffer {buffer}:")));
        }
    }
}
