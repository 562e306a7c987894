//! The checks of a single site's step in their order, asked of a call's bytes one by one:
//! written from the call's description once more, with nothing of the model in it.

use model::generate::StepCall;

/// The checks in their order.
#[derive(Clone, Copy, Debug, PartialEq, Eq, PartialOrd, Ord)]
pub enum Check {
    /// 17.
    Shape,
    /// 6.
    Command,
    /// 7.
    Cut,
    /// 8.
    Number,
    /// 10.
    Row,
    /// 11.
    Destination,
    /// 12.
    Down,
    /// 13.
    Up,
    /// 14.
    Started,
    /// None is met.
    Accepted,
}

impl Check {
    pub fn number(self) -> u32 {
        match self {
            Check::Shape => 17,
            Check::Command => 6,
            Check::Cut => 7,
            Check::Number => 8,
            Check::Row => 10,
            Check::Destination => 11,
            Check::Down => 12,
            Check::Up => 13,
            Check::Started => 14,
            Check::Accepted => 0,
        }
    }
}

/// A clause of a check, and whether it is met.
type Clause = (Check, &'static str, bool);

/// A call, read by its bytes.
pub struct Given<'a>(pub &'a StepCall);

impl Given<'_> {
    /// All that is met, in the order of the checks. The first is due.
    pub fn met(&self) -> Vec<(Check, &'static str)> {
        let clauses = [
            self.of_lengths(),
            self.of_terms(),
            self.of_sizes(),
            self.of_site(),
            self.of_codes(),
            self.of_group_codes(),
            self.of_command(),
            self.of_row(),
            self.of_state(),
            self.if_accepted(),
        ]
        .concat();
        let met = clauses.into_iter().filter(|&(.., is_met)| is_met);
        met.map(|(check, name, _)| (check, name)).collect()
    }

    fn of_lengths(&self) -> Vec<Clause> {
        let call = self.0;
        vec![
            (Check::Shape, "17 terms length", call.terms.len() != 32),
            (Check::Shape, "17 site length", call.site.len() != 40),
            (Check::Shape, "17 row length", call.row != 20),
            (Check::Shape, "17 result length", call.result != 8),
        ]
    }

    /// The terms, if they have their length.
    fn terms(&self) -> Option<&[u8; 32]> {
        self.0.terms[..].try_into().ok()
    }

    /// The site, likewise.
    fn site(&self) -> Option<&[u8; 40]> {
        self.0.site[..].try_into().ok()
    }

    /// n and this site's number.
    fn numbers(&self) -> Option<(usize, usize)> {
        let terms = self.terms()?;
        Some((terms[1].into(), terms[6].into()))
    }

    fn of_terms(&self) -> Vec<Clause> {
        let Some(terms) = self.terms() else {
            return Vec::new();
        };
        let is_reserved = terms[8..16].iter().any(|&byte| byte != 0);
        vec![
            (Check::Shape, "17 layout number", terms[0] != 3),
            (Check::Shape, "17 willing above 1", terms[7] > 1),
            (Check::Shape, "17 reserved in the terms", is_reserved),
        ]
    }

    fn of_sizes(&self) -> Vec<Clause> {
        let (Some(terms), Some((n, _))) = (self.terms(), self.numbers()) else {
            return Vec::new();
        };
        let quorum = |at: usize| usize::from(terms[at]) + 256 * usize::from(terms[at + 1]);
        let (commit, abort) = (quorum(2), quorum(4));
        let (own, far) = terms[16..].split_at(n.min(16));
        let all: usize = own.iter().map(|&weight| usize::from(weight)).sum();
        let most = all - own.iter().max().map_or(0, |&weight| usize::from(weight));
        let is_far = far.iter().any(|&weight| weight != 0);
        vec![
            (Check::Shape, "17 n under 3", n < 3),
            (Check::Shape, "17 n over 16", n > 16),
            (Check::Shape, "17 weight of 0", own.contains(&0)),
            (Check::Shape, "17 weight from n up not 0", is_far),
            (Check::Shape, "17 C over W - h", commit > most),
            (Check::Shape, "17 A over W - h", abort > most),
            (Check::Shape, "17 C + A under W + 1", commit + abort <= all),
        ]
    }

    fn of_site(&self) -> Vec<Clause> {
        let Some(site) = self.site() else {
            return Vec::new();
        };
        let is_reserved = site[5..8].iter().any(|&byte| byte != 0);
        vec![
            (Check::Shape, "17 up", site[0] > 1),
            (Check::Shape, "17 role", site[1] > 1),
            (Check::Shape, "17 prepare record", site[2] > 1),
            (Check::Shape, "17 group", site[3] > 2),
            (Check::Shape, "17 outcome", site[4] > 2),
            (Check::Shape, "17 reserved at the site", is_reserved),
        ]
    }

    /// The code of the site's state.
    fn state(&self) -> u8 {
        match self.0.site.get(2..5) {
            Some(&[_, _, outcome]) if outcome != 0 => 3_u8.wrapping_add(outcome),
            Some(&[_, group, _]) if group != 0 => 1_u8.wrapping_add(group),
            Some(&[prepare, ..]) => prepare,
            _ => 0,
        }
    }

    /// The site with n and its number, where that is below n.
    fn member(&self) -> Option<(&[u8; 40], usize, usize)> {
        let (n, own) = self.numbers()?;
        let site = self.site()?;
        (own < n && n <= 16).then_some((site, n, own))
    }

    fn of_codes(&self) -> Vec<Clause> {
        let Some((site, n, own)) = self.member() else {
            return Vec::new();
        };
        let codes = &site[8..24];
        let is_far = codes[n..].iter().any(|&code| code != 0);
        let is_above = codes.iter().any(|&code| code > 5);
        let is_other = codes[own] != self.state();
        vec![
            (Check::Shape, "17 code above 5", is_above),
            (Check::Shape, "17 entry from n up not 0", is_far),
            (Check::Shape, "17 own entry not its state", is_other),
        ]
    }

    fn of_group_codes(&self) -> Vec<Clause> {
        let Some((site, n, own)) = self.member() else {
            return Vec::new();
        };
        let (group, codes) = (site[3], &site[24..]);
        let is_above = codes.iter().any(|&code| code > 5);
        let is_far = codes[n..].iter().any(|&code| code != 0);
        let is_other = codes[own] != 1_u8.wrapping_add(group);
        let is_there = codes.iter().any(|&code| code != 0);
        let has = group != 0;
        vec![
            (Check::Shape, "17 group's code above 5", has && is_above),
            (
                Check::Shape,
                "17 group's entry from n up not 0",
                has && is_far,
            ),
            (
                Check::Shape,
                "17 group's own entry not its group",
                has && is_other,
            ),
            (Check::Shape, "17 vector without a group", !has && is_there),
        ]
    }

    fn of_command(&self) -> Vec<Clause> {
        let command = &self.0.command[..];
        let is_none = matches!(command, [0 | 6.., ..]);
        let is_cut = matches!(command, [2, row @ ..] if row.len() < 20);
        let numbers = self.numbers();
        let is_no_site = numbers.is_some_and(|(n, own)| own >= n);
        let codes = self.0.site.get(8..).unwrap_or_default();
        let is_odd = is_no_site && codes.iter().any(|&code| code > 5);
        vec![
            (Check::Command, "6 no command byte", command.is_empty()),
            (Check::Command, "6 not 1 to 5", is_none),
            (Check::Cut, "7 row cut short", is_cut),
            (Check::Number, "8 own n or more", is_no_site && !is_odd),
            (Check::Number, "8 own n or more, any codes", is_odd),
        ]
    }

    /// The row of a delivery, if it is there.
    fn row(&self) -> Option<&[u8; 20]> {
        match &self.0.command[..] {
            [2, row @ ..] => row.first_chunk(),
            _ => None,
        }
    }

    fn of_row(&self) -> Vec<Clause> {
        let (Some(row), Some((n, own))) = (self.row(), self.numbers()) else {
            return Vec::new();
        };
        let is_above = row[4..].iter().take(n).any(|&code| code > 5);
        let to = u32::from(row[2]) + 256 * u32::from(row[3]);
        let is_sent = own < 16 && to >> own & 1 == 1;
        vec![
            (Check::Row, "10 kind not 1 to 7", !(1..=7).contains(&row[0])),
            (Check::Row, "10 sender n or more", usize::from(row[1]) >= n),
            (Check::Row, "10 code above 5", is_above),
            (Check::Destination, "11 not a destination", !is_sent),
        ]
    }

    fn of_state(&self) -> Vec<Clause> {
        let (Some(&command), Some(&up)) = (self.0.command.first(), self.0.site.first()) else {
            return Vec::new();
        };
        let is_down = |byte: u8| command == byte && up == 0;
        let is_elsewhere = self.numbers().is_some_and(|(_, own)| own != 0);
        let is_begun = command == 1 && self.state() != 0;
        vec![
            (Check::Down, "12 down: START", is_down(1)),
            (Check::Down, "12 down: DELIVER", is_down(2)),
            (Check::Down, "12 down: TIMEOUT", is_down(3)),
            (Check::Down, "12 down: CRASH", is_down(4)),
            (Check::Up, "13 RECOVER while up", command == 5 && up != 0),
            (
                Check::Started,
                "14 START, not site 0",
                command == 1 && is_elsewhere,
            ),
            (Check::Started, "14 START, not active", is_begun),
        ]
    }

    /// What is done where nothing stands against it.
    fn if_accepted(&self) -> Vec<Clause> {
        let name = match (self.0.command.first(), self.row(), self.state()) {
            (Some(1), ..) if self.0.terms.get(7) == Some(&1) => "0 START, willing",
            (Some(1), ..) => "0 START, unwilling",
            (_, Some(row), _) => delivered(row[0]),
            (Some(3), _, 0) => "0 TIMEOUT, active",
            (Some(3), ..) if self.0.site.get(1) == Some(&0) => "0 TIMEOUT, subordinate",
            (Some(3), ..) => "0 TIMEOUT, coordinator",
            (Some(4), ..) => "0 CRASH",
            (Some(5), _, 0) => "0 RECOVER, empty log",
            (Some(5), ..) => "0 RECOVER, a record",
            _ => "0 none",
        };
        let length = self.row().map_or(1, |_| 21);
        let is_longer = self.0.command.len() > length;
        vec![
            (Check::Accepted, name, true),
            (Check::Accepted, "0 bytes after the command", is_longer),
        ]
    }
}

/// A delivery of this kind.
fn delivered(kind: u8) -> &'static str {
    match kind {
        1 => "0 DELIVER of a prepare",
        2 => "0 DELIVER of a vote",
        3 => "0 DELIVER of a join commit",
        4 => "0 DELIVER of a join abort",
        5 => "0 DELIVER of an in-group",
        6 => "0 DELIVER of an outcome",
        _ => "0 DELIVER of an ack",
    }
}
