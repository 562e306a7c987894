//! Copies of the model with one fault each in writing or reading lines: the
//! comparison has to see it.

use model::calls::Rules;
use model::flaw::Flaw;
use model::lines::{command_of, sizes_of, Refusal};
use model::sizes::MAX_LIST;
use model::{number, read_lines, write_lines, Ask, Command, Edition, Header, Output};

#[derive(Clone, Copy, Debug, PartialEq, Eq)]
pub enum Fault {
    /// None: the copy is the model.
    None,
    /// A line with this flaw is read as if it were without.
    Forgives(Flaw),
    /// The place of 19 is the end of the bad line.
    GivesLineEnd,
    /// The place of 19 is that of the last bad line.
    GivesLastBadLine,
    /// The place of 6 and 7 is that of the next byte.
    GivesNextByte,
    /// The place of 20 is the input's end.
    GivesEndForRoom,
    /// The place of an accepted call is the output's end.
    GivesOutputEnd,
    /// A buffer of exactly the output's length is refused.
    RefusesExactRoom,
    /// A buffer that is too short is changed.
    ChangesShortRoom,
    /// What comes before a bad line or command is left in the buffer.
    LeavesGoodPart,
    /// The byte after the output is changed.
    WritesPastOutput,
    /// A refusal by 20 says how long the output is.
    TellsLength,
    /// A buffer without any room is refused before all else.
    AsksRoomFirst,
    /// A list that gets too long is refused before the lines after it are read.
    AsksLengthFirst,
    /// The sizes are refused before the commands are read.
    AsksSizesFirst,
    /// The sizes are refused before the length.
    AsksSizesBeforeLength,
    /// The reader takes any sizes.
    TakesAnySizes,
    /// A list of 32,768 bytes is refused with 1.
    FearsLongestList,
    /// The writer refuses a site that is none of the sites, with 8.
    AsksSites,
    /// The writer loses the high byte of a row number.
    LosesHighByte,
    /// The writer takes a list of the second edition for one.
    TakesSecondEdition,
}

const OTHERS: [Fault; 19] = [
    Fault::GivesLineEnd,
    Fault::GivesLastBadLine,
    Fault::GivesNextByte,
    Fault::GivesEndForRoom,
    Fault::GivesOutputEnd,
    Fault::RefusesExactRoom,
    Fault::ChangesShortRoom,
    Fault::LeavesGoodPart,
    Fault::WritesPastOutput,
    Fault::TellsLength,
    Fault::AsksRoomFirst,
    Fault::AsksLengthFirst,
    Fault::AsksSizesFirst,
    Fault::AsksSizesBeforeLength,
    Fault::TakesAnySizes,
    Fault::FearsLongestList,
    Fault::AsksSites,
    Fault::LosesHighByte,
    Fault::TakesSecondEdition,
];

/// Every fault there is.
pub fn faults() -> impl Iterator<Item = Fault> {
    Flaw::ALL.into_iter().map(Fault::Forgives).chain(OTHERS)
}

pub struct Faulty(pub Fault);

/// One of the two calls.
type Call = fn(&[u8], &mut [u8]) -> Output;

impl Rules for Faulty {
    fn written(&self, list: &[u8], buffer: &mut [u8]) -> Output {
        let output = match self.0 {
            Fault::AsksSites => write_with_sites(list, buffer),
            Fault::LosesHighByte => write_lines(&without_high_bytes(list), buffer),
            Fault::TakesSecondEdition if Edition::of(list) == Edition::Second => {
                write_second(list, buffer)
            }
            _ => self.answer(write_lines, list, buffer),
        };
        match (self.0, output.number) {
            (Fault::GivesNextByte, number::COMMAND | number::CUT) => Output {
                place: output.place + 1,
                ..output
            },
            _ => output,
        }
    }

    fn read(&self, text: &[u8], buffer: &mut [u8]) -> Output {
        let output = self.answer(read_lines, text, buffer);
        match output.number {
            number::LINE => self.bad_line(text, buffer, output),
            number::LIST_LONG if self.0 == Fault::AsksSizesBeforeLength => {
                sizes_refused(text).unwrap_or(output)
            }
            number::SITES..=number::WILLING if self.0 == Fault::TakesAnySizes => {
                read_any_sizes(text, buffer)
            }
            _ => output,
        }
    }
}

impl Faulty {
    /// A call as the model answers it, but for the faults that both calls can
    /// have.
    fn answer(&self, call: Call, input: &[u8], buffer: &mut [u8]) -> Output {
        let before = buffer.to_vec();
        let output = call(input, buffer);
        match (self.0, output.number) {
            (Fault::GivesOutputEnd, number::NONE) => Output {
                place: output.length,
                ..output
            },
            (Fault::GivesEndForRoom, number::ROOM) => Output {
                place: input.len(),
                ..output
            },
            (Fault::TellsLength, number::ROOM) => Output {
                length: call(input, &mut vec![0; 200_000]).length,
                ..output
            },
            (Fault::RefusesExactRoom, number::NONE) if output.length == buffer.len() => {
                buffer.copy_from_slice(&before);
                Refusal::at_start(number::ROOM).into()
            }
            (Fault::FearsLongestList, number::NONE)
                if [output.length, output.place].contains(&MAX_LIST) =>
            {
                buffer.copy_from_slice(&before);
                Refusal::at_start(number::LIST_LONG).into()
            }
            (Fault::AsksRoomFirst, 1..) if buffer.is_empty() => {
                Refusal::at_start(number::ROOM).into()
            }
            _ => {
                self.spoil(call, input, buffer, output);
                output
            }
        }
    }

    /// Changes the buffer where that is the fault.
    fn spoil(&self, call: Call, input: &[u8], buffer: &mut [u8], output: Output) {
        let place = match (self.0, output.number) {
            (Fault::WritesPastOutput, number::NONE) => output.length,
            (Fault::ChangesShortRoom, number::ROOM) => 0,
            (Fault::LeavesGoodPart, number::COMMAND | number::CUT | number::LINE) => {
                call(&input[..output.place], buffer);
                return;
            }
            _ => return,
        };
        if let Some(byte) = buffer.get_mut(place) {
            *byte ^= 1;
        }
    }

    /// A text with a bad line.
    fn bad_line(&self, text: &[u8], buffer: &mut [u8], output: Output) -> Output {
        let (before, rest) = text.split_at(output.place);
        match self.0 {
            Fault::Forgives(flaw) => forgive(flaw, text, buffer).unwrap_or(output),
            Fault::GivesLineEnd => Output {
                place: output.place + lines(rest).next().map_or(0, <[u8]>::len),
                ..output
            },
            Fault::GivesLastBadLine => Output {
                place: last_bad_line(text),
                ..output
            },
            Fault::AsksLengthFirst => {
                let part = read_lines(before, &mut []);
                let is_long = part.number == number::LIST_LONG;
                if is_long {
                    part
                } else {
                    output
                }
            }
            Fault::AsksSizesFirst => sizes_refused(text).unwrap_or(output),
            _ => output,
        }
    }
}

fn lines(text: &[u8]) -> impl Iterator<Item = &[u8]> {
    text.split_inclusive(|&byte| byte == b'\n')
}

/// The answer to a text without a flaw, if it has no other bad line.
fn forgive(flaw: Flaw, text: &[u8], buffer: &mut [u8]) -> Option<Output> {
    let output = read_lines(&flaw.mended(text), buffer);
    match output.number {
        number::LINE => None,
        number::NONE => Some(Output {
            place: text.len(),
            ..output
        }),
        _ => Some(output),
    }
}

/// Where the last bad line begins.
fn last_bad_line(text: &[u8]) -> usize {
    let (mut place, mut last) = (0, 0);
    for line in lines(text) {
        let is_good = match place {
            0 => sizes_of(line).is_some(),
            _ => command_of(line).is_some(),
        };
        if !is_good {
            last = place;
        }
        place += line.len();
    }
    last
}

/// The refusal of a text's sizes, if its first line is good and they are not.
fn sizes_refused(text: &[u8]) -> Option<Output> {
    let sizes = sizes_of(lines(text).next()?)?;
    let number = sizes.check().err()?;
    Some(Refusal::at_start(number).into())
}

/// Reads a text whose first line is good, whatever its sizes are.
fn read_any_sizes(text: &[u8], buffer: &mut [u8]) -> Output {
    let first = lines(text).next().unwrap_or_default();
    let usual = b"sites 3 commit 2 abort 2 willing 7\n";
    let output = read_lines(&[usual, &text[first.len()..]].concat(), buffer);
    if let (number::NONE, Some(sizes)) = (output.number, sizes_of(first)) {
        buffer[..5].copy_from_slice(&Edition::First.header(&sizes));
        return Output {
            place: text.len(),
            ..output
        };
    }
    output
}

/// The commands of a list that can be written, with their places.
fn commands(list: &[u8]) -> Vec<(usize, Command)> {
    let mut commands = Vec::new();
    let mut at = 5;
    while let Ok((command, next)) = Command::read(Ask::new(list, at)) {
        commands.push((at, command));
        at = next;
    }
    commands
}

fn write_with_sites(list: &[u8], buffer: &mut [u8]) -> Output {
    let n = list.first().copied().unwrap_or_default().into();
    let beyond = |(_, command): &(usize, Command)| command.site() >= n;
    let found = commands(list).into_iter().find(beyond);
    match (write_lines(list, &mut []).number, found) {
        (number::NONE | number::ROOM, Some((place, _))) => {
            let number = number::SITE;
            Refusal { number, place }.into()
        }
        _ => write_lines(list, buffer),
    }
}

/// Writes a list of the second edition as if it were one of the first.
fn write_second(list: &[u8], buffer: &mut [u8]) -> Output {
    match Header::of_list(list) {
        Ok(header) => {
            let first = Edition::First.header(&header.sizes);
            write_lines(&[&first, &list[header.end..]].concat(), buffer)
        }
        Err(number) => Refusal::at_start(number).into(),
    }
}

fn without_high_bytes(list: &[u8]) -> Vec<u8> {
    let mut list = list.to_vec();
    for (at, command) in commands(&list) {
        if matches!(command, Command::Deliver { .. }) {
            list[at + 2] = 0;
        }
    }
    list
}
