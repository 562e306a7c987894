//! The converter's checks in their order, asked of a call one by one, and what must come
//! of it: written from the papers once more, with nothing of the model in it.

use model::number;

use crate::comparer::Answer;

/// Where a list goes.
#[derive(Clone, Copy, Debug, PartialEq, Eq, PartialOrd, Ord)]
pub enum Way {
    Forward,
    Back,
}

/// The checks in their order.
#[derive(Clone, Copy, Debug, PartialEq, Eq, PartialOrd, Ord)]
pub enum Check {
    /// 17, the result's length.
    Result,
    /// 1, the list's length.
    Long,
    /// 2, the same.
    Short,
    /// 3.
    Sites,
    /// 2, a header of the second edition that is cut.
    Cut,
    /// 21.
    Weight,
    /// 4.
    Quorums,
    /// 5.
    Willing,
    /// 22.
    Uneven,
    /// 1, the length of the list that is made.
    LongOutput,
    /// 20.
    Room,
    /// None is met.
    Accepted,
}

impl Check {
    pub fn number(self) -> u32 {
        let number = match self {
            Check::Result => number::WORLD,
            Check::Long | Check::LongOutput => number::LIST_LONG,
            Check::Short | Check::Cut => number::LIST_SHORT,
            Check::Sites => number::SITES,
            Check::Weight => number::WEIGHT,
            Check::Quorums => number::QUORUMS,
            Check::Willing => number::WILLING,
            Check::Uneven => number::UNEVEN,
            Check::Room => number::ROOM,
            Check::Accepted => number::NONE,
        };
        number.into()
    }
}

/// A clause of a check, and whether it is met.
type Clause = (Check, &'static str, bool);

/// What a call is given: a list, room for its output, and the length of the result.
#[derive(Clone, Copy)]
pub struct Given<'a> {
    pub list: &'a [u8],
    pub room: usize,
    pub result: usize,
}

impl<'a> Given<'a> {
    /// With a result of its length.
    pub fn new(list: &'a [u8], room: usize) -> Given<'a> {
        Given {
            list,
            room,
            result: 16,
        }
    }

    pub fn way(&self) -> Way {
        match self.list {
            [130, ..] => Way::Back,
            _ => Way::Forward,
        }
    }

    /// All that is met, in the order of the checks. The first is due.
    pub fn met(&self) -> Vec<(Check, &'static str)> {
        let need = self.need();
        let clauses = [
            self.of_lengths(),
            self.of_sites(),
            self.of_sizes(),
            vec![
                (Check::LongOutput, "1 converted", need > 32_768),
                (Check::Room, "20 room short", self.room < need),
                (Check::Accepted, "0 exact room", self.room == need),
                (Check::Accepted, "0 more room", self.room > need),
            ],
        ]
        .concat();
        let met = clauses.into_iter().filter(|&(.., is_met)| is_met);
        met.map(|(check, name, _)| (check, name)).collect()
    }

    fn of_lengths(&self) -> Vec<Clause> {
        let size = self.list.len();
        vec![
            (Check::Result, "17 result length", self.result != 16),
            (Check::Long, "1 over 32,768", size > 32_768),
            (Check::Short, "2 under 5", size < 5),
        ]
    }

    fn of_sites(&self) -> Vec<Clause> {
        let Some(n) = self.n() else {
            return Vec::new();
        };
        let is_back = self.way() == Way::Back;
        let is_later = !is_back && [131, 132].contains(&n);
        vec![
            (Check::Sites, "3 n under 3", n < 3),
            (Check::Sites, "3 n over 16", n > 16 && !is_later),
            (Check::Sites, "3 a later edition", is_later),
            (
                Check::Cut,
                "2 header cut",
                is_back && self.list.len() < 8 + n,
            ),
        ]
    }

    /// What is wrong with the numbers after n, as far as they are there.
    fn of_sizes(&self) -> Vec<Clause> {
        let (Some(n), Some([commit, abort, willing])) = (self.n(), self.numbers()) else {
            return Vec::new();
        };
        let weights = self.weights(n);
        let all: usize = weights.iter().sum();
        let most = all - weights.iter().max().unwrap_or(&0);
        let is_even = weights.iter().all(|&weight| weight == 1);
        vec![
            (Check::Weight, "21 weight of 0", weights.contains(&0)),
            (Check::Quorums, "4 C over W - h", commit > most),
            (Check::Quorums, "4 A over W - h", abort > most),
            (Check::Quorums, "4 C + A under W + 1", commit + abort <= all),
            (Check::Willing, "5 willing bit", willing >> n.min(16) != 0),
            (Check::Uneven, "22 not all weights 1", !is_even),
        ]
    }

    /// The byte that says n.
    fn n(&self) -> Option<usize> {
        let place = match self.way() {
            Way::Forward => 0,
            Way::Back => 1,
        };
        self.list.get(place).map(|&n| n.into())
    }

    /// C, A and the willing bits.
    fn numbers(&self) -> Option<[usize; 3]> {
        let word = |low: u8, high: u8| usize::from(low) + 256 * usize::from(high);
        match (self.way(), self.list) {
            (Way::Forward, &[_, c, a, low, high, ..]) => {
                Some([c.into(), a.into(), word(low, high)])
            }
            (Way::Back, &[_, _, c, c_high, a, a_high, low, high, ..]) => {
                Some([word(c, c_high), word(a, a_high), word(low, high)])
            }
            _ => None,
        }
    }

    /// What the sites weigh: 1 in the first edition, and where a header is cut.
    fn weights(&self, n: usize) -> Vec<usize> {
        let there = match self.way() {
            Way::Forward => &[],
            Way::Back => self.list.get(8..).unwrap_or_default(),
        };
        let weights = there.iter().map(|&weight| usize::from(weight));
        weights.chain([1; 255]).take(n).collect()
    }

    /// How much room the output takes; of a bad header, what it would take.
    pub fn need(&self) -> usize {
        let (size, more) = (self.list.len(), 3 + self.n().unwrap_or(0));
        match self.way() {
            Way::Forward => size + more,
            Way::Back => size.saturating_sub(more),
        }
    }

    /// The list in the other edition, where none of the checks is met.
    fn output(&self) -> Vec<u8> {
        match (self.way(), self.list) {
            (Way::Forward, &[n, c, a, low, high, ref commands @ ..]) => {
                let weights = vec![1; n.into()];
                [&[130, n, c, 0, a, 0, low, high], &weights[..], commands].concat()
            }
            (Way::Back, &[_, n, c, _, a, _, low, high, ref rest @ ..]) => {
                [&[n, c, a, low, high], &rest[n.into()..]].concat()
            }
            _ => Vec::new(),
        }
    }

    /// The answer that is due to a call on these buffers: 17 touches neither, another
    /// refusal leaves the first and says 0 and 0 in the other.
    pub fn due(&self, number: u32, start: &[Vec<u8>; 2]) -> Answer<2> {
        let [mut buffer, mut result] = start.clone();
        if number != Check::Result.number() {
            result.fill(0);
        }
        if number == Check::Accepted.number() {
            let output = self.output();
            buffer[..output.len()].copy_from_slice(&output);
            result[..8].copy_from_slice(&output.len().to_le_bytes());
            result[8..].copy_from_slice(&self.list.len().to_le_bytes());
        }
        (number, [buffer, result])
    }
}
