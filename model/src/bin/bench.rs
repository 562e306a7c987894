//! The same work through the proved library and through the model, in turns,
//! and how much of it a second each does.
//!
//! - Lists: a whole list in one call. The library is called as C calls it, so
//!   its time has the writing of the world's bytes in it; the model gives its
//!   world as it is.
//! - One command: every command of a list as a call of its own on the world's
//!   bytes, from the fresh world on. Both read the bytes, check the world, play
//!   the command and write the bytes.
//! - Lines: lists written as lines and texts read back, short ones and the longest
//!   there is, each in one call on both sides; how many bytes of text a second, and
//!   how long one text takes.
//! - Converting: a quiet day, and duels as long as can be, from the first edition to the
//!   second and back, likewise; how many bytes of the list that is made.
//! - Single steps: every command of a list as a step of its site alone, from fresh sites on,
//!   with the row itself where one is delivered. Both read the terms and the site, check
//!   them, take the step and write the bytes.
//!
//! Run it for release: cargo run --release --bin bench

#![deny(unsafe_code)]

#[path = "../../ffi/mod.rs"]
mod ffi;

use std::hint::black_box;
use std::time::{Duration, Instant};

use model::calls::{Calls, Model, LINES_RESULT_BYTES, RESULT_BYTES};
use model::command::list_of;
use model::convert::converted;
use model::generate::{duel, weighted_duel, Rng};
use model::layout::{encode, site_bytes, WORLD_BYTES};
use model::lines::list_spelled;
use model::quiet;
use model::row::{ROW_BYTES, STORE_BYTES};
use model::sizes::MAX_SITES;
use model::step_call::Steps;
use model::terms::TERMS_BYTES;
use model::{play_list, Ask, Command, Header, Input, Replies, Site, Sizes, Terms, World};

use ffi::Library;

/// Turns that each side has; the best one counts.
const TURNS: usize = 7;
/// What a turn takes at least.
const TURN: Duration = Duration::from_millis(60);
const SEED: u64 = 4;
const GROWTH: [usize; 6] = [1_000, 2_000, 4_000, 8_000, 16_000, 32_768];
/// Lengths of texts, each about four times the one before; the last is the most
/// that an accepted text has.
const TEXTS: [usize; 3] = [12_288, 49_152, 196_620];
/// Room for every text and every list.
const ROOM: usize = 200_000;

/// A name, and the list that is played.
type Workload = (String, Vec<u8>);

struct Buffers {
    store: Vec<u8>,
    world: Vec<u8>,
    result: Vec<u8>,
    lines: Vec<u8>,
    /// The result of a call on lines or of the converter.
    output: Vec<u8>,
}

/// What each side does in a second.
struct Speeds {
    library: f64,
    model: f64,
}

impl Speeds {
    fn ratio(&self) -> f64 {
        self.library / self.model
    }
}

fn main() {
    println!(
        "buffers: zeroed once before the first play, not cleared between plays; no clearing is timed"
    );
    println!("best of {TURNS} turns of at least {} ms", TURN.as_millis());
    let by_command = least(&days(), "one command: ", run_commands);
    let lines = run_lines();
    let converted = least(&editions(), "converting: ", run_converted);
    let singly = least(&days(), "single steps: ", run_steps);
    let whole = least(&[days(), growth()].concat(), "", run_list);
    println!("one-command ratio {by_command:.2}");
    println!("lines ratio {lines:.2}");
    println!("converting ratio {converted:.2}");
    println!("single-step ratio {singly:.2}");
    println!("ratio {whole:.2}");
}

/// Runs all workloads; gives the smallest ratio.
fn least(workloads: &[Workload], what: &str, run: fn(&str, &[u8]) -> f64) -> f64 {
    workloads
        .iter()
        .map(|(name, list)| run(&format!("{what}{name}"), list))
        .fold(f64::INFINITY, f64::min)
}

fn days() -> Vec<Workload> {
    vec![
        (
            "quiet day, 16 sites, again and again".into(),
            quiet::list([16, 9, 9], Replies::Last),
        ),
        ("duel with crashes, 16 sites".into(), duel(16, SEED, 32_768)),
        ("duel with crashes, 3 sites".into(), duel(3, SEED, 32_768)),
        (
            "duel with crashes, 16 sites of different weight".into(),
            weighted_duel(different_weights(), SEED, 32_768),
        ),
    ]
}

/// Sixteen sites of 1, 17, 33 and so on to 241, which is 1,936 together; both quorums
/// as small as can be.
fn different_weights() -> Sizes {
    let mut sizes = Sizes::new(16, 969, 968, 0);
    for (weight, value) in sizes.weights.iter_mut().zip((1..).step_by(16)) {
        *weight = value;
    }
    assert_eq!(sizes.weight(), 1_936);
    sizes
}

fn growth() -> Vec<Workload> {
    let name = |bytes| format!("growth, 16 sites, {bytes} bytes");
    GROWTH
        .map(|bytes| (name(bytes), duel(16, SEED, bytes)))
        .into()
}

/// A whole list in one call.
fn run_list(name: &str, list: &[u8]) -> f64 {
    let library = |buffers: &mut Buffers| list_by_library(list, buffers);
    let model = |buffers: &mut Buffers| list_by_model(list, buffers);
    in_turns(name, list.len(), library, model)
}

/// A list's commands, one call each. The bytes begin as those of the fresh
/// world in each play, and setting them is in both sides' time.
fn run_commands(name: &str, list: &[u8]) -> f64 {
    let header = Header::of_list(list).expect("a list with a header");
    let fresh = encode(&World::fresh(header.sizes));
    let begin = (header.end, &fresh[..]);
    let library = |buffers: &mut Buffers| commands_by(&Library, list, begin, buffers);
    let model = |buffers: &mut Buffers| commands_by(&Model, list, begin, buffers);
    in_turns(name, list.len(), library, model)
}

/// A list's commands, each as a step of its site alone. The sites begin as fresh ones in
/// each play, and setting them is in both sides' time.
fn run_steps(name: &str, list: &[u8]) -> f64 {
    let steps = Singly::of(list);
    let library = |buffers: &mut Buffers| steps.taken_by(&Library, buffers);
    let model = |buffers: &mut Buffers| steps.taken_by(&Model, buffers);
    in_turns(name, steps.bytes(), library, model)
}

/// Plays on both sides; prints and gives library over model.
fn in_turns(
    name: &str,
    bytes: usize,
    by_library: impl Fn(&mut Buffers) -> usize,
    by_model: impl Fn(&mut Buffers) -> usize,
) -> f64 {
    let (events, speeds) = speeds(name, by_library, by_model);
    let (library, model, ratio) = (speeds.library, speeds.model, speeds.ratio());
    println!(
        "{name}: {bytes} bytes, {events} events; library {library:.0} events/s, model {model:.0} events/s; {ratio:.2}"
    );
    ratio
}

/// How much is done at once, and the best speed of each side.
fn speeds(
    name: &str,
    by_library: impl Fn(&mut Buffers) -> usize,
    by_model: impl Fn(&mut Buffers) -> usize,
) -> (usize, Speeds) {
    let mut buffers = Buffers {
        store: vec![0; STORE_BYTES],
        world: vec![0; WORLD_BYTES],
        result: vec![0; RESULT_BYTES],
        lines: vec![0; ROOM],
        output: vec![0; LINES_RESULT_BYTES],
    };
    let done = by_library(&mut buffers);
    assert_eq!(done, by_model(&mut buffers), "{name}");
    let (mut library, mut model) = (0.0_f64, 0.0_f64);
    for _ in 0..TURNS {
        library = library.max(speed(|| by_library(&mut buffers)));
        model = model.max(speed(|| by_model(&mut buffers)));
    }
    (done, Speeds { library, model })
}

/// How much is done in a second, over one turn.
fn speed(mut play: impl FnMut() -> usize) -> f64 {
    let start = Instant::now();
    let mut done = 0;
    while start.elapsed() < TURN {
        done += play();
    }
    done as f64 / start.elapsed().as_secs_f64()
}

fn list_by_library(list: &[u8], buffers: &mut Buffers) -> usize {
    let Buffers {
        store,
        world,
        result,
        ..
    } = buffers;
    let number = Library.play_list(black_box(list), store, world, result);
    assert_eq!(number, 0);
    black_box(&store);
    black_box(&world);
    let mut events = [0; 4];
    events.copy_from_slice(&result[..4]);
    u32::from_le_bytes(events) as usize
}

fn list_by_model(list: &[u8], buffers: &mut Buffers) -> usize {
    let played = play_list(&mut buffers.store, black_box(list));
    assert_eq!(played.number, 0);
    black_box(&buffers.store);
    black_box(&played.world);
    played.events
}

/// Each command by a call of its own, from the place of the first one and the fresh
/// world on; gives how many there were.
fn commands_by(
    side: &impl Calls,
    list: &[u8],
    (first, fresh): (usize, &[u8]),
    buffers: &mut Buffers,
) -> usize {
    let Buffers {
        store,
        world,
        result,
        ..
    } = buffers;
    world.copy_from_slice(fresh);
    let (mut at, mut calls) = (first, 0);
    while at < list.len() {
        let ask = Ask::new(black_box(list), at);
        let number = side.play_command(black_box(&mut *world), store, ask, result);
        assert_eq!(number, 0);
        at = u64::from_le_bytes(result[..].try_into().expect("8 bytes")) as usize;
        calls += 1;
    }
    black_box(&store);
    black_box(&world);
    calls
}

/// A list's commands as steps of single sites.
struct Singly {
    terms: Vec<[u8; TERMS_BYTES]>,
    /// The site of each step, and its command with its row.
    steps: Vec<(usize, Vec<u8>)>,
}

impl Singly {
    /// The rows are those that the list leaves, for a row never changes.
    fn of(list: &[u8]) -> Singly {
        let header = Header::of_list(list).expect("a list with a header");
        let mut store = vec![0; STORE_BYTES];
        assert_eq!(play_list(&mut store, list).number, 0);
        let (rows, _) = store.as_chunks::<ROW_BYTES>();
        let (mut steps, mut at) = (Vec::new(), header.end);
        while at < list.len() {
            let (command, next) = Command::read(Ask::new(list, at)).expect("a command");
            steps.push((command.site(), input(command, rows).bytes()));
            at = next;
        }
        let terms = (0..header.sizes.n).map(|own| Terms::of(header.sizes, own).bytes());
        Singly {
            terms: terms.collect(),
            steps,
        }
    }

    fn bytes(&self) -> usize {
        self.steps.iter().map(|(_, command)| command.len()).sum()
    }

    /// All steps, from fresh sites on; gives how many there were.
    fn taken_by(&self, side: &impl Steps, buffers: &mut Buffers) -> usize {
        let mut sites = [site_bytes(&Site::FRESH); MAX_SITES];
        let (row, result) = (&mut [0; ROW_BYTES], &mut buffers.result);
        for (own, command) in &self.steps {
            let (terms, site) = (black_box(&self.terms[*own]), &mut sites[*own]);
            let number = side.step(terms, site, black_box(command), row, result);
            assert_eq!(number, 0);
            black_box(&row);
        }
        black_box(&sites);
        self.steps.len()
    }
}

/// A command as it is given to its site.
fn input(command: Command, rows: &[[u8; ROW_BYTES]]) -> Input<'_> {
    match command {
        Command::Start => Input::Start,
        Command::Deliver { row, .. } => Input::Deliver(&rows[row]),
        Command::Timeout(_) => Input::Timeout,
        Command::Crash(_) => Input::Crash,
        Command::Recover(_) => Input::Recover,
    }
}

/// Lists written as lines, and texts read; gives the smallest ratio.
fn run_lines() -> f64 {
    let texts = TEXTS.map(sized_text);
    let mixed = run_written("lines written, mixed commands", &mixed_list());
    let written = texts.iter().map(|text| {
        let list = list_spelled(text).expect("a text in the form");
        run_written("lines written, growth", &list)
    });
    let read = texts
        .iter()
        .map(|text| run_read("lines read, growth", text));
    written.chain(read).fold(mixed, f64::min)
}

fn run_written(name: &str, list: &[u8]) -> f64 {
    output_turns(name, "text", |side, buffers| write_by(side, list, buffers))
}

fn run_read(name: &str, text: &[u8]) -> f64 {
    output_turns(name, "text", |side, buffers| read_by(side, text, buffers))
}

fn run_converted(name: &str, list: &[u8]) -> f64 {
    output_turns(name, "list", |side, buffers| {
        convert_by(side, list, buffers)
    })
}

/// Lists of the first edition, and the same in the second; the duels are as long as can
/// be there.
fn editions() -> Vec<Workload> {
    let lists = [
        (
            "quiet day, 16 sites",
            quiet::list([16, 9, 9], Replies::Last),
        ),
        ("duel, 16 sites", duel(16, SEED, 32_768 - 19)),
        ("duel, 3 sites", duel(3, SEED, 32_768 - 6)),
    ];
    let both_ways = |(name, first): (&str, Vec<u8>)| {
        let second = converted(&first).expect("a list that can be converted");
        [("forward", first), ("back", second)].map(|(way, list)| (format!("{name}, {way}"), list))
    };
    lists.into_iter().flat_map(both_ways).collect()
}

/// A list of 32,768 bytes with as many commands of each sort, but for some
/// starts at its end.
fn mixed_list() -> Vec<u8> {
    let mut rng = Rng::new(SEED);
    let mut commands = Vec::new();
    for _ in 0..2_978 {
        let row = rng.below(1_024);
        let sites = [(); 4].map(|()| rng.below(16));
        commands.extend([
            Command::Start,
            Command::deliver(row, sites[0]),
            Command::Timeout(sites[1]),
            Command::Crash(sites[2]),
            Command::Recover(sites[3]),
        ]);
    }
    commands.extend([Command::Start; 5]);
    let list = list_of(Sizes::new(16, 9, 9, 65_535), &commands);
    assert_eq!(list.len(), 32_768);
    list
}

/// A text of so many bytes, a multiple of six. After its first line of 42 it has
/// rounds of three commands, 30 bytes each, and starts for what is left.
fn sized_text(bytes: usize) -> Vec<u8> {
    let mut rng = Rng::new(SEED);
    let mut text = String::from("sites 16 commit 15 abort 15 willing 65535\n");
    for _ in 0..(bytes - 42) / 30 {
        let sites = [(); 2].map(|()| rng.between(100, 255));
        let [timeout, recover] = sites;
        text += &format!("start\ntimeout {timeout}\nrecover {recover}\n");
    }
    text += &"start\n".repeat((bytes - 42) % 30 / 6);
    assert_eq!(text.len(), bytes);
    text.into()
}

/// One call on both sides, on a text or a list; prints, and gives library over model.
fn output_turns(name: &str, what: &str, call: impl Fn(&dyn Calls, &mut Buffers) -> usize) -> f64 {
    let by_library = |buffers: &mut Buffers| call(&Library, buffers);
    let by_model = |buffers: &mut Buffers| call(&Model, buffers);
    let (bytes, speeds) = speeds(name, by_library, by_model);
    let (library, model, ratio) = (speeds.library, speeds.model, speeds.ratio());
    let [one, other] = [library, model].map(|speed| 1e6 * bytes as f64 / speed);
    println!(
        "{name}: {bytes} bytes of {what}; library {library:.0} bytes/s, model {model:.0} bytes/s; {ratio:.2}; one {what} takes {one:.2} and {other:.2} microseconds"
    );
    ratio
}

/// Writes a list; gives the length of its text.
fn write_by(side: &dyn Calls, list: &[u8], buffers: &mut Buffers) -> usize {
    let Buffers { lines, output, .. } = buffers;
    let number = side.write_lines(black_box(list), lines, output);
    assert_eq!(number, 0);
    black_box(&lines);
    length_in(output)
}

/// Converts a list; gives the length of the one that is made.
fn convert_by(side: &dyn Calls, list: &[u8], buffers: &mut Buffers) -> usize {
    let Buffers { lines, output, .. } = buffers;
    let number = side.convert(black_box(list), lines, output);
    assert_eq!(number, 0);
    black_box(&lines);
    length_in(output)
}

/// The output's length in a result.
fn length_in(result: &[u8]) -> usize {
    let (length, _) = result.split_at(8);
    u64::from_le_bytes(length.try_into().expect("8 bytes")) as usize
}

/// Reads a text; gives its own length.
fn read_by(side: &dyn Calls, text: &[u8], buffers: &mut Buffers) -> usize {
    let Buffers { lines, output, .. } = buffers;
    let number = side.read_lines(black_box(text), lines, output);
    assert_eq!(number, 0);
    black_box(&lines);
    text.len()
}
