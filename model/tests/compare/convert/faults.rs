//! Copies of the model with one fault each in converting a list, or in the place of its
//! play: the comparison has to see it.

use model::calls::Rules;
use model::convert::converted;
use model::header::{HEADER_BYTES, SECOND, WEIGHTS_AT};
use model::lines::Refusal;
use model::sizes::{check_sites, MAX_LIST};
use model::{number, play_list, Ask, Command, Edition, Header, Output, Played, Sizes};

#[derive(Clone, Copy, Debug, PartialEq, Eq)]
pub enum Fault {
    /// None: the copy is the model.
    None,
    /// A weight of 2 is taken back.
    TakesTwo,
    /// Only the first weight is looked at.
    LooksAtFirstWeight,
    /// A weight other than 1 is given 21.
    MistakesUneven,
    /// 22 comes before 21, 4 and 5.
    AsksEvenFirst,
    /// 22 comes before 4 and 5.
    AsksEvenBeforeQuorums,
    /// 22 comes before 5.
    AsksEvenBeforeWilling,
    /// 1 of the list that is made is not asked.
    ForgetsLength,
    /// It comes after 20.
    AsksLengthAfterRoom,
    /// It comes before 4 and 5.
    AsksLengthBeforeSizes,
    /// It is asked of a list that goes back too, as if that got longer.
    AsksLengthGoingBack,
    /// A list of 32,768 bytes cannot be made.
    FearsLongestOutput,
    /// A list of 32,768 bytes does not go back.
    FearsLongestList,
    /// A buffer without any room is refused before all else.
    AsksRoomFirst,
    /// 20 comes before 22.
    AsksRoomBeforeEven,
    /// A buffer of exactly the output's length is refused.
    RefusesExactRoom,
    /// The room for the list handed in is asked for.
    AsksRoomOfInput,
    /// A buffer that is too short is changed.
    ChangesShortRoom,
    /// A list that is refused with 22 leaves a header in the buffer.
    LeavesHeader,
    /// A list that would get too long leaves its beginning in the buffer.
    LeavesBeginning,
    /// The byte after the output is changed.
    WritesPastOutput,
    /// The low and the high byte of C change places going forward.
    SwapsBytes,
    /// C and A change places going back.
    SwapsQuorums,
    /// Sites from 8 up are unwilling.
    LosesHighByte,
    /// One weight more is written.
    AddsWeight,
    /// Sixteen weights are written.
    WritesSixteenWeights,
    /// The last site weighs 2.
    WeighsLast,
    /// The first byte after the header is lost.
    DropsFirstByte,
    /// The last byte is lost.
    DropsLastByte,
    /// Going back, the last weight is taken for a command.
    UndercountsHeader,
    /// Going back, the first command's byte is taken for a weight.
    OvercountsHeader,
    /// Commands are read, and refused with 6 and 7.
    ReadsCommands,
    /// 131 and 132 begin a list of the second edition too.
    TakesLaterEditions,
    /// No list goes back: 130 is an n.
    ReadsSecondAsSites,
    /// The willing bits are not checked.
    PassesWilling,
    /// The place of a refusal is the list's end.
    GivesEndOfRefused,
    /// The place of 22 is that of the weight.
    GivesWeightPlace,
    /// The place of an accepted call is 0.
    GivesStart,
    /// The place of an accepted call is the output's end.
    GivesOutputEnd,
    /// A refusal by 20 says how long the output is.
    TellsLength,
    /// The place of a list that is played is counted from its first command.
    CountsFromFirstCommand,
    /// The place of 16 is the place of the first command.
    GivesPlaceForStore,
}

/// Every fault there is.
pub const FAULTS: [Fault; 41] = [
    Fault::TakesTwo,
    Fault::LooksAtFirstWeight,
    Fault::MistakesUneven,
    Fault::AsksEvenFirst,
    Fault::AsksEvenBeforeQuorums,
    Fault::AsksEvenBeforeWilling,
    Fault::ForgetsLength,
    Fault::AsksLengthAfterRoom,
    Fault::AsksLengthBeforeSizes,
    Fault::AsksLengthGoingBack,
    Fault::FearsLongestOutput,
    Fault::FearsLongestList,
    Fault::AsksRoomFirst,
    Fault::AsksRoomBeforeEven,
    Fault::RefusesExactRoom,
    Fault::AsksRoomOfInput,
    Fault::ChangesShortRoom,
    Fault::LeavesHeader,
    Fault::LeavesBeginning,
    Fault::WritesPastOutput,
    Fault::SwapsBytes,
    Fault::SwapsQuorums,
    Fault::LosesHighByte,
    Fault::AddsWeight,
    Fault::WritesSixteenWeights,
    Fault::WeighsLast,
    Fault::DropsFirstByte,
    Fault::DropsLastByte,
    Fault::UndercountsHeader,
    Fault::OvercountsHeader,
    Fault::ReadsCommands,
    Fault::TakesLaterEditions,
    Fault::ReadsSecondAsSites,
    Fault::PassesWilling,
    Fault::GivesEndOfRefused,
    Fault::GivesWeightPlace,
    Fault::GivesStart,
    Fault::GivesOutputEnd,
    Fault::TellsLength,
    Fault::CountsFromFirstCommand,
    Fault::GivesPlaceForStore,
];

pub struct Faulty(pub Fault);

impl Rules for Faulty {
    fn list(&self, store: &mut [u8], list: &[u8]) -> Played {
        let played = play_list(store, list);
        let first = Header::of_list(list).map_or(0, |header| header.end);
        let place = match (self.0, played.number) {
            (Fault::GivesPlaceForStore, number::STORE) => first,
            (Fault::CountsFromFirstCommand, _) => played.place.saturating_sub(first),
            _ => played.place,
        };
        Played { place, ..played }
    }

    fn carried(&self, list: &[u8], buffer: &mut [u8]) -> Output {
        let made = self
            .early(list, buffer.len())
            .and_then(|()| self.made(list));
        let made = made.and_then(|made| {
            self.check_room(list, &made, buffer.len())?;
            Ok(made)
        });
        let output = match made {
            Ok(made) => {
                buffer[..made.len()].copy_from_slice(&made);
                Output {
                    number: number::NONE,
                    length: made.len(),
                    place: list.len(),
                }
            }
            Err(number) => Refusal::at_start(number).into(),
        };
        self.spoil(list, buffer, output);
        self.told(list, output)
    }
}

/// A whole header, whatever its sizes are, and the edition.
fn opened(list: &[u8]) -> Option<(Edition, Sizes)> {
    let header = Header::read(list).ok()?;
    Some((Edition::of(list), header.sizes))
}

/// How long the list is in the other edition.
fn need(list: &[u8], edition: Edition, n: usize) -> usize {
    let own = edition.header_bytes(n);
    list.len() - own + edition.other().header_bytes(n)
}

impl Faulty {
    /// A refusal that is not due, or not yet.
    fn early(&self, list: &[u8], room: usize) -> Result<(), u8> {
        if self.0 == Fault::AsksRoomFirst && room == 0 {
            return Err(number::ROOM);
        }
        match opened(list) {
            Some((Edition::First, sizes)) => self.early_forward(list, &sizes, room),
            Some((Edition::Second, sizes)) => self.early_back(list, &sizes, room),
            None => Ok(()),
        }
    }

    fn early_forward(&self, list: &[u8], sizes: &Sizes, room: usize) -> Result<(), u8> {
        let need = need(list, Edition::First, sizes.n);
        let has_sites = check_sites(sizes.n).is_ok();
        let is_good = sizes.check().is_ok();
        let (is_given, number) = match self.0 {
            Fault::AsksLengthAfterRoom => (is_good && room < need, number::ROOM),
            Fault::AsksLengthBeforeSizes => (has_sites && need > MAX_LIST, number::LIST_LONG),
            _ => (false, number::NONE),
        };
        refused(is_given, number)
    }

    fn early_back(&self, list: &[u8], sizes: &Sizes, room: usize) -> Result<(), u8> {
        let is_good = sizes.check().is_ok();
        let need = need(list, Edition::Second, sizes.n);
        let grown = 2 * list.len() - need;
        let (is_given, number) = match self.0 {
            Fault::AsksRoomBeforeEven => (is_good && room < need, number::ROOM),
            Fault::AsksLengthGoingBack => (is_good && grown > MAX_LIST, number::LIST_LONG),
            Fault::FearsLongestList => (list.len() == MAX_LIST, number::LIST_LONG),
            Fault::ReadsSecondAsSites => (true, number::SITES),
            _ => (self.asks_even(sizes), number::UNEVEN),
        };
        refused(is_given, number)
    }

    /// Is 22 given too early?
    fn asks_even(&self, sizes: &Sizes) -> bool {
        let before = match self.0 {
            Fault::AsksEvenFirst => Ok(()),
            Fault::AsksEvenBeforeQuorums => sizes.check_weights(),
            Fault::AsksEvenBeforeWilling => sizes.check_weights().and(sizes.check_quorums()),
            _ => return false,
        };
        before.is_ok() && sizes.check_even().is_err()
    }

    /// The list in the other edition, with the fault.
    fn made(&self, list: &[u8]) -> Result<Vec<u8>, u8> {
        match (self.0, converted(list)) {
            (_, Ok(made)) => self.misspelt(list, made),
            (Fault::MistakesUneven, Err(number::UNEVEN)) => Err(number::WEIGHT),
            (Fault::TakesTwo, Err(number::UNEVEN)) => taken_back(list, |weight| weight <= 2),
            (Fault::LooksAtFirstWeight, Err(number::UNEVEN)) if list[WEIGHTS_AT] == 1 => {
                taken_back(list, |_| true)
            }
            (Fault::ForgetsLength, Err(number::LIST_LONG)) if list.len() <= MAX_LIST => {
                Ok(made_anyway(list))
            }
            (Fault::PassesWilling, Err(number::WILLING)) => Ok(made_anyway(list)),
            (Fault::TakesLaterEditions, Err(number::SITES)) => taken_for_second(list),
            (_, refusal) => refusal,
        }
    }

    /// What is made of an accepted list.
    fn misspelt(&self, list: &[u8], mut made: Vec<u8>) -> Result<Vec<u8>, u8> {
        let Some((edition, sizes)) = opened(list) else {
            return Ok(made);
        };
        match (self.0, edition) {
            (Fault::FearsLongestOutput, _) => {
                refused(made.len() == MAX_LIST, number::LIST_LONG)?;
            }
            (Fault::ReadsCommands, _) => check_commands(list, edition.header_bytes(sizes.n))?,
            (Fault::DropsLastByte, _) if made.len() > edition.other().header_bytes(sizes.n) => {
                made.pop();
            }
            (_, Edition::First) => self.misspell_second(&mut made, sizes.n),
            (_, Edition::Second) => self.misspell_first(&mut made),
        }
        Ok(made)
    }

    /// A list that went forward.
    fn misspell_second(&self, made: &mut Vec<u8>, n: usize) {
        let end = WEIGHTS_AT + n;
        match self.0 {
            Fault::SwapsBytes => made.swap(2, 3),
            Fault::LosesHighByte => made[7] = 0,
            Fault::AddsWeight => made.insert(end, 1),
            Fault::WritesSixteenWeights => drop(made.splice(end..end, vec![1; 16 - n])),
            Fault::WeighsLast => made[end - 1] = 2,
            Fault::DropsFirstByte if made.len() > end => drop(made.remove(end)),
            _ => {}
        }
    }

    /// A list that went back.
    fn misspell_first(&self, made: &mut Vec<u8>) {
        match self.0 {
            Fault::SwapsQuorums => made.swap(1, 2),
            Fault::LosesHighByte => made[4] = 0,
            Fault::UndercountsHeader => made.insert(HEADER_BYTES, 1),
            Fault::OvercountsHeader if made.len() > HEADER_BYTES => drop(made.remove(HEADER_BYTES)),
            _ => {}
        }
    }

    /// Check 20.
    fn check_room(&self, list: &[u8], made: &[u8], room: usize) -> Result<(), u8> {
        let need = match self.0 {
            Fault::RefusesExactRoom => made.len() + 1,
            Fault::AsksRoomOfInput => made.len().max(list.len()),
            _ => made.len(),
        };
        refused(room < need, number::ROOM)
    }

    /// Changes the buffer where that is the fault.
    fn spoil(&self, list: &[u8], buffer: &mut [u8], output: Output) {
        let place = match (self.0, output.number) {
            (Fault::WritesPastOutput, number::NONE) => output.length,
            (Fault::ChangesShortRoom, number::ROOM) => 0,
            (Fault::LeavesHeader, number::UNEVEN) => 4,
            (Fault::LeavesBeginning, number::LIST_LONG) if list.len() <= MAX_LIST => 7,
            _ => return,
        };
        if let Some(byte) = buffer.get_mut(place) {
            *byte ^= 1;
        }
    }

    /// What the result says.
    fn told(&self, list: &[u8], output: Output) -> Output {
        let Output { length, place, .. } = output;
        let (length, place) = match (self.0, output.number) {
            (Fault::GivesStart, number::NONE) => (length, 0),
            (Fault::GivesOutputEnd, number::NONE) => (length, length),
            (Fault::GivesEndOfRefused, 1..) => (length, list.len()),
            (Fault::GivesWeightPlace, number::UNEVEN) => (length, uneven_at(list)),
            (Fault::TellsLength, number::ROOM) => (made_anyway(list).len(), place),
            _ => (length, place),
        };
        Output {
            length,
            place,
            ..output
        }
    }
}

fn refused(is_given: bool, number: u8) -> Result<(), u8> {
    match is_given {
        true => Err(number),
        false => Ok(()),
    }
}

/// A list with a whole header in the other edition, whatever its numbers are.
fn made_anyway(list: &[u8]) -> Vec<u8> {
    let Some((edition, sizes)) = opened(list) else {
        return Vec::new();
    };
    let commands = &list[edition.header_bytes(sizes.n)..];
    [&edition.other().header(&sizes), commands].concat()
}

/// The same if all weights are such.
fn taken_back(list: &[u8], is_taken: fn(u8) -> bool) -> Result<Vec<u8>, u8> {
    let n = usize::from(list[1]);
    let are_taken = list[WEIGHTS_AT..][..n]
        .iter()
        .all(|&weight| is_taken(weight));
    refused(!are_taken, number::UNEVEN)?;
    Ok(made_anyway(list))
}

/// The answer to a list that begins with a later edition's byte, as if it were 130.
fn taken_for_second(list: &[u8]) -> Result<Vec<u8>, u8> {
    match list {
        [131 | 132, rest @ ..] => converted(&[&[SECOND], rest].concat()),
        _ => Err(number::SITES),
    }
}

/// Where the first weight other than 1 is.
fn uneven_at(list: &[u8]) -> usize {
    let weights = list.iter().skip(WEIGHTS_AT);
    WEIGHTS_AT + weights.take_while(|&&weight| weight == 1).count()
}

/// Checks 6 and 7 of all commands.
fn check_commands(list: &[u8], first: usize) -> Result<(), u8> {
    let mut at = first;
    while at < list.len() {
        (_, at) = Command::read(Ask::new(list, at))?;
    }
    Ok(())
}
