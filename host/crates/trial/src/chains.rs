//! Whether all members carried out the same blocks.

use serde::{Deserialize, Serialize};
use std::fmt;

/// A block's place in a member's chain, as `/chain` of its store tells it.
#[derive(Clone, Debug, PartialEq, Eq, Serialize, Deserialize)]
pub struct Link {
    /// The view of the block.
    pub view: u64,
    /// Its payload in hexadecimal digits.
    pub payload: String,
    /// A hash over the names of all blocks up to it, in hexadecimal digits.
    pub chain: String,
}

/// Where two members differ.
#[derive(Clone, Debug, PartialEq, Eq)]
pub struct Fork {
    /// The first of the two, by its place in the list.
    pub one: usize,
    /// The second.
    pub other: usize,
    /// What the first has at the first place where they differ.
    pub of_one: Option<Link>,
    /// What the second has there.
    pub of_other: Option<Link>,
}

impl fmt::Display for Fork {
    fn fmt(&self, f: &mut fmt::Formatter<'_>) -> fmt::Result {
        let name = |link: &Option<Link>| match link {
            Some(link) => format!("view {} {} (chain {})", link.view, link.payload, link.chain),
            None => "nothing".to_owned(),
        };
        let Fork {
            one,
            other,
            of_one,
            of_other,
        } = self;
        write!(
            f,
            "member {one} has {}, member {other} has {}",
            name(of_one),
            name(of_other)
        )
    }
}

/// Why a chain is none.
#[derive(Clone, Debug, PartialEq, Eq)]
pub struct Unordered {
    /// Whose it is.
    pub member: usize,
    /// The view that isn't above the one before.
    pub view: u64,
}

/// Compares the chains of members where they overlap: from the later of two beginnings to the earlier of
/// two ends. What a member lacks before its last restoring, or behind, is no difference.
///
/// # Errors
///
/// The first two that differ.
pub fn agree(chains: &[Vec<Link>]) -> Result<(), Box<Fork>> {
    for (one, first) in chains.iter().enumerate() {
        for (other, second) in chains.iter().enumerate().skip(one + 1) {
            compare(first, second).map_err(|(of_one, of_other)| {
                Box::new(Fork {
                    one,
                    other,
                    of_one,
                    of_other,
                })
            })?;
        }
    }
    Ok(())
}

/// The views of each chain rise.
///
/// # Errors
///
/// The first that doesn't.
pub fn rise(chains: &[Vec<Link>]) -> Result<(), Unordered> {
    for (member, chain) in chains.iter().enumerate() {
        if let Some(pair) = chain.windows(2).find(|pair| pair[0].view >= pair[1].view) {
            return Err(Unordered {
                member,
                view: pair[1].view,
            });
        }
    }
    Ok(())
}

type Differing = (Option<Link>, Option<Link>);

fn compare(one: &[Link], other: &[Link]) -> Result<(), Differing> {
    let [Some(from), Some(to)] = [
        one.first()
            .zip(other.first())
            .map(|(one, other)| one.view.max(other.view)),
        one.last()
            .zip(other.last())
            .map(|(one, other)| one.view.min(other.view)),
    ] else {
        return Ok(());
    };
    let common = |chain: &[Link]| -> Vec<Link> {
        chain
            .iter()
            .filter(|link| (from..=to).contains(&link.view))
            .cloned()
            .collect()
    };
    let (one, other) = (common(one), common(other));
    let places = one.len().max(other.len());
    match (0..places).find(|at| one.get(*at) != other.get(*at)) {
        Some(at) => Err((one.get(at).cloned(), other.get(at).cloned())),
        None => Ok(()),
    }
}

#[cfg(test)]
mod tests {
    use super::*;

    fn chain(views: &[u64]) -> Vec<Link> {
        let link = |view: &u64| Link {
            view: *view,
            payload: format!("p{view}"),
            chain: format!("c{view}"),
        };
        views.iter().map(link).collect()
    }

    #[test]
    fn chains_agree_where_they_overlap() {
        assert_eq!(
            agree(&[
                chain(&[1, 2, 4, 7]),
                chain(&[2, 4, 7, 8]),
                vec![],
                chain(&[7])
            ]),
            Ok(())
        );
        assert_eq!(agree(&[chain(&[1, 2]), chain(&[5, 6])]), Ok(()));
    }

    #[test]
    fn another_payload_another_past_and_a_missing_block_are_forks() {
        let right = chain(&[1, 2, 4, 7]);
        let mut wrong = right.clone();
        wrong[2].payload = "other".to_owned();
        let fork = agree(&[right.clone(), right.clone(), wrong.clone()]).unwrap_err();
        assert_eq!((fork.one, fork.other), (0, 2));
        assert_eq!(fork.of_other, Some(wrong[2].clone()));
        let mut past = right.clone();
        past[3].chain = "other".to_owned();
        assert!(agree(&[right.clone(), past]).is_err());
        assert!(agree(&[right.clone(), chain(&[1, 2, 7])]).is_err());
        assert!(agree(&[right, chain(&[1, 2, 3, 4, 7])]).is_err());
    }

    #[test]
    fn views_rise() {
        assert_eq!(rise(&[chain(&[1, 2, 4])]), Ok(()));
        let falling = vec![chain(&[1]), chain(&[1, 3, 3])];
        assert_eq!(rise(&falling), Err(Unordered { member: 1, view: 3 }));
    }
}
