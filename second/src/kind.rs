//! The standard message types: nine that are read, seven that are not.

/// A message type that is read.
#[derive(Clone, Copy, Debug, PartialEq, Eq)]
#[allow(missing_docs)]
pub enum Kind {
    Fpl,
    Chg,
    Cnl,
    Dla,
    Dep,
    Arr,
    Rqp,
    Rqs,
    Spl,
}

impl Kind {
    /// All nine, in document 01's order.
    pub const ALL: [Kind; 9] =
        [Kind::Fpl, Kind::Chg, Kind::Cnl, Kind::Dla, Kind::Dep, Kind::Arr, Kind::Rqp, Kind::Rqs, Kind::Spl];

    /// The three letters behind `(`.
    pub fn name(self) -> &'static str {
        match self {
            Kind::Fpl => "FPL",
            Kind::Chg => "CHG",
            Kind::Cnl => "CNL",
            Kind::Dla => "DLA",
            Kind::Dep => "DEP",
            Kind::Arr => "ARR",
            Kind::Rqp => "RQP",
            Kind::Rqs => "RQS",
            Kind::Spl => "SPL",
        }
    }

    /// The type with this name, if it is one of the nine.
    pub fn named(name: &[u8]) -> Option<Kind> {
        match name {
            b"FPL" => Some(Kind::Fpl),
            b"CHG" => Some(Kind::Chg),
            b"CNL" => Some(Kind::Cnl),
            b"DLA" => Some(Kind::Dla),
            b"DEP" => Some(Kind::Dep),
            b"ARR" => Some(Kind::Arr),
            b"RQP" => Some(Kind::Rqp),
            b"RQS" => Some(Kind::Rqs),
            b"SPL" => Some(Kind::Spl),
            _ => None,
        }
    }
}

/// The seven standard types that are not read.
pub const UNREAD: [&str; 7] = ["ALR", "RCF", "CPL", "EST", "CDN", "ACP", "LAM"];

/// Whether a type is one of these seven.
pub fn is_unread(name: &[u8]) -> bool {
    UNREAD.iter().any(|unread| unread.as_bytes() == name)
}
