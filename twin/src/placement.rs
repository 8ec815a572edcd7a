//! Placement rules: which of several processors gets a row.

/// What a rule may look at: a processor before the new row.
#[derive(Clone, Copy, Debug)]
pub struct Standing {
    /// Counted from 1.
    pub number: usize,
    pub spare_share: i64,
    pub rows: usize,
}

#[derive(Clone, Debug, PartialEq, Eq)]
pub enum Rule {
    Best,
    /// The eight processor numbers, once each, first choice first.
    Listed([i64; 8]),
    Fewest,
}

impl Rule {
    /// Does `a` have a rank before `b`'s?
    fn before(&self, a: &Standing, b: &Standing) -> bool {
        match self {
            Rule::Best => a.spare_share < b.spare_share,
            Rule::Listed(order) => {
                let position = |s: &Standing| order.iter().position(|n| *n == s.number as i64);
                position(a) < position(b)
            }
            Rule::Fewest => a.rows < b.rows || (a.rows == b.rows && a.spare_share > b.spare_share),
        }
    }

    /// The first rank wins; the lower number among equals. Give the candidates
    /// in rising number.
    pub fn choose(&self, candidates: &[Standing]) -> Option<usize> {
        let mut chosen: Option<&Standing> = None;
        for candidate in candidates {
            match chosen {
                Some(c) if !self.before(candidate, c) => {}
                _ => chosen = Some(candidate),
            }
        }
        chosen.map(|c| c.number)
    }

    /// A listed order holds the numbers 1 to 8 once each.
    pub fn is_sound(&self) -> bool {
        match self {
            Rule::Listed(order) => (1..=8).all(|n| order.iter().filter(|o| **o == n).count() == 1),
            _ => true,
        }
    }
}

#[cfg(test)]
mod tests {
    use super::*;

    fn standing(number: usize, spare_share: i64, rows: usize) -> Standing {
        Standing { number, spare_share, rows }
    }

    #[test]
    fn rules_by_hand() {
        let four = [standing(1, 500, 3), standing(2, -3, 4), standing(3, 700, 3), standing(4, -3, 5)];
        assert_eq!(Rule::Best.choose(&four), Some(2));
        assert_eq!(Rule::Fewest.choose(&four), Some(3));
        assert_eq!(Rule::Listed([8, 7, 6, 5, 4, 1, 2, 3]).choose(&four), Some(4));
        assert_eq!(Rule::Listed([1, 2, 3, 4, 5, 6, 7, 8]).choose(&four), Some(1));
        assert_eq!(Rule::Best.choose(&[]), None);
        let equal = [standing(2, 10, 1), standing(5, 10, 1)];
        assert_eq!(Rule::Best.choose(&equal), Some(2));
        assert_eq!(Rule::Fewest.choose(&equal), Some(2));
    }

    #[test]
    fn listed_orders() {
        assert!(Rule::Listed([8, 7, 6, 5, 4, 3, 2, 1]).is_sound());
        assert!(!Rule::Listed([8, 7, 6, 5, 4, 3, 2, 2]).is_sound());
        assert!(!Rule::Listed([0, 7, 6, 5, 4, 3, 2, 1]).is_sound());
        assert!(!Rule::Listed([9, 7, 6, 5, 4, 3, 2, 1]).is_sound());
    }
}
