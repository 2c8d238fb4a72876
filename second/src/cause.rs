//! Why an update is refused, as far as more than its number can be said.

use std::fmt;

use crate::flight::Difference;
use crate::refusal::Refusal;
use crate::state::State;

/// The cause of a refusal by 12, 10 or 13.
#[derive(Clone, Debug, PartialEq, Eq)]
pub enum Cause {
    /// 12: all that differs, of what is compared.
    Differs(Vec<Difference>),
    /// 10: the key that the field named lacks in field 18.
    Lacks(&'static str),
    /// 13: the state found.
    Found(State),
}

impl fmt::Display for Cause {
    fn fmt(&self, f: &mut fmt::Formatter<'_>) -> fmt::Result {
        match self {
            Cause::Differs(differences) => {
                let names: Vec<String> = differences.iter().map(Difference::to_string).collect();
                f.write_str(&names.join(" "))
            }
            Cause::Lacks(key) => f.write_str(key),
            Cause::Found(state) => write!(f, "{state}"),
        }
    }
}

/// A refusal, with its cause where it has one.
#[derive(Clone, Debug, PartialEq, Eq)]
pub struct Refused {
    /// Number, field and place.
    pub refusal: Refusal,
    /// What more is to be said.
    pub cause: Option<Cause>,
}

impl Refused {
    pub(crate) fn by(refusal: Refusal, cause: Cause) -> Self {
        Refused { refusal, cause: Some(cause) }
    }
}

impl From<Refusal> for Refused {
    fn from(refusal: Refusal) -> Self {
        Refused { refusal, cause: None }
    }
}

impl fmt::Display for Refused {
    fn fmt(&self, f: &mut fmt::Formatter<'_>) -> fmt::Result {
        write!(f, "{}", self.refusal)?;
        self.cause.as_ref().map_or(Ok(()), |cause| write!(f, " {cause}"))
    }
}
