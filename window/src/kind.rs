use crate::refusal::Refusal;
use std::fmt;
use std::str::FromStr;

/// The kind of hash by which an index gives its ids their places. It belongs to the index: the head has its number, and so has an image.
///
/// Between indexes of different kinds nothing is promised: an id may have another row in each. As text, a kind is its name, which the command takes too, and which is parsed.
///
/// ```
/// use shawltide::{Index, Kind, Refusal, GAMMA};
/// let index = Index::build_with(Kind::Plain, &[10, 20, 30], GAMMA)?;
/// assert_eq!(index, Index::build(&[10, 20, 30], GAMMA)?);
/// assert_eq!(index.kind()?.to_string(), "plain");
/// assert_eq!("plain".parse(), Ok(Kind::Plain));
/// assert_eq!(Kind::try_from(0), Ok(Kind::Plain));
/// assert_eq!(Kind::try_from(2), Err(Refusal::UnknownKind));
/// # Ok::<(), Refusal>(())
/// ```
///
/// Number 1 is for the unpatched wyhash of boomphf. This version does not know it yet, nor any other: they are refused with 16.
#[derive(Clone, Copy, Debug, Default, PartialEq, Eq, Hash)]
#[non_exhaustive]
pub enum Kind {
    /// 0: the plain mixer, the public SplitMix64 step.
    #[default]
    Plain,
}

impl Kind {
    /// Its number, in a head and in an image.
    pub const fn number(self) -> u64 {
        match self {
            Kind::Plain => 0,
        }
    }

    /// The kind of that number, if this version knows it.
    pub const fn from_number(number: u64) -> Option<Kind> {
        Some(match number {
            0 => Kind::Plain,
            _ => return None,
        })
    }
}

impl From<Kind> for u64 {
    fn from(kind: Kind) -> u64 {
        kind.number()
    }
}

/// Unknown numbers are refused with 16, as the calls do.
impl TryFrom<u64> for Kind {
    type Error = Refusal;

    fn try_from(number: u64) -> Result<Kind, Refusal> {
        Kind::from_number(number).ok_or(Refusal::UnknownKind)
    }
}

impl fmt::Display for Kind {
    fn fmt(&self, f: &mut fmt::Formatter) -> fmt::Result {
        f.pad(match self {
            Kind::Plain => "plain",
        })
    }
}

/// By its name, as it is shown. Any other text is refused with 16.
impl FromStr for Kind {
    type Err = Refusal;

    fn from_str(name: &str) -> Result<Kind, Refusal> {
        match name {
            "plain" => Ok(Kind::Plain),
            _ => Err(Refusal::UnknownKind),
        }
    }
}

#[cfg(test)]
mod tests {
    use super::*;

    #[test]
    fn numbers_come_back() {
        for number in 0..1_000 {
            match Kind::from_number(number) {
                Some(kind) => assert_eq!((kind.number(), u64::from(kind)), (number, number)),
                None => assert_eq!(Kind::try_from(number), Err(Refusal::UnknownKind)),
            }
        }
        assert_eq!(Kind::default().number(), 0);
    }

    /// Among them such as look like a known one to whoever takes only their low bits.
    #[test]
    fn numbers_that_are_not_known() {
        for number in [1, 2, 1 << 8, 1 << 16, 1 << 32, (1 << 32) + 1, 1 << 63, u64::MAX] {
            assert_eq!(Kind::from_number(number), None);
            assert_eq!(Kind::try_from(number), Err(Refusal::UnknownKind));
        }
    }

    #[test]
    fn names_come_back() {
        for kind in (0..1_000).filter_map(Kind::from_number) {
            assert_eq!(kind.to_string().parse(), Ok(kind));
        }
        for name in ["", "Plain", " plain", "plain\n", "0", "wyhash"] {
            assert_eq!(name.parse::<Kind>(), Err(Refusal::UnknownKind), "{name:?}");
        }
    }

    #[test]
    fn shown_by_its_name() {
        assert_eq!(Kind::Plain.to_string(), "plain");
        assert_eq!(format!("{:>7}|{:<6}|", Kind::Plain, Kind::Plain), "  plain|plain |");
    }
}
