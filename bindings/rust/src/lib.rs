//! Safe types over the library for brokers. What is proved of the library is in its header, `sandbox_broker.h`: this crate calls it with pointers and
//! lengths that are right, and keeps nothing else.
//!
//! A caller lays out the block of its call, begins it, and makes each step as planned on the channels that it shares with a broker:
//!
//! ```
//! use sandbox_broker::{Argument, Block, Call, Number, Step};
//! use std::sync::atomic::{AtomicU64, Ordering::SeqCst};
//!
//! let channel: Vec<AtomicU64> = (0..65).map(|word| AtomicU64::new(u64::from(word == 0))).collect();
//! let block = Block::new(Number::FileQuery, 0x10001, &[Argument::Text("\\docs\\a")]).unwrap();
//! let mut call = Call::new();
//! call.begin(1, 3, &block).unwrap();
//! loop {
//!     let found = match call.plan() {
//!         Step::Idle => break,
//!         Step::Load { word, .. } => channel[word].load(SeqCst),
//!         Step::Store { word, value, .. } => {
//!             channel[word].store(value, SeqCst);
//!             0
//!         }
//!         Step::Exchange { word, expected, value, .. } => {
//!             channel[word].compare_exchange(expected, value, SeqCst, SeqCst).unwrap_or_else(|found| found)
//!         }
//!     };
//!     call.after(found);
//! }
//! // Nobody serves this channel, so the call gives up after three loads of its state, and leaves the channel abandoned.
//! assert!(matches!(call.ending(), Some(sandbox_broker::Ending::TimedOut { channel: 0 })));
//! assert_eq!(channel[0].load(SeqCst), 5);
//! ```

mod drafts;
mod sys;

pub use drafts::{Condition, Draft};

use std::error::Error;
use std::fmt;

/// The version of the library's functions and structs.
pub fn version() -> u32 {
    // SAFETY: the function takes nothing.
    unsafe { sys::sb_version() }
}

/// The calls, by their numbers.
#[derive(Clone, Copy, Debug, PartialEq, Eq)]
#[repr(u64)]
pub enum Number {
    Ping = 1,
    FileCreate = 2,
    FileOpen = 3,
    FileQuery = 4,
    FileRename = 5,
    PipeCreate = 6,
    KeyCreate = 7,
    KeyOpen = 8,
    EventCreate = 9,
    EventOpen = 10,
    HandleClose = 11,
}

/// An argument of a call.
#[derive(Clone, Copy, Debug)]
pub enum Argument<'a> {
    /// A number, also a handle.
    Number(u64),
    /// A text or a name.
    Text(&'a str),
}

/// Why there is nothing of what was asked for.
#[derive(Clone, Copy, Debug, PartialEq, Eq)]
pub enum Refused {
    /// The numbers or arguments do not fit, or this is not the time for the call.
    Unfit,
    /// There was no memory.
    NoMemory,
    /// The block of the call needs more than 64 words.
    TooBig,
    /// No text means exactly this string.
    NoLiteral,
}

impl fmt::Display for Refused {
    fn fmt(&self, f: &mut fmt::Formatter<'_>) -> fmt::Result {
        f.write_str(match self {
            Refused::Unfit => "the numbers or arguments do not fit",
            Refused::NoMemory => "out of memory",
            Refused::TooBig => "the call needs more than 64 words",
            Refused::NoLiteral => "no text means exactly this string",
        })
    }
}

impl Error for Refused {}

// The arguments as the library takes them, and the units of which their strings are parts.
fn passed(arguments: &[Argument<'_>]) -> Result<(Vec<sys::Argument>, Vec<u16>), Refused> {
    let mut units: Vec<u16> = Vec::new();
    let mut passed = Vec::with_capacity(arguments.len());
    for argument in arguments {
        passed.push(match argument {
            Argument::Number(number) => sys::Argument {
                number: *number,
                ..Default::default()
            },
            Argument::Text(text) => {
                let start = units.len();
                units.extend(text.encode_utf16());
                sys::Argument {
                    is_text: 1,
                    start: u32::try_from(start).map_err(|_| Refused::TooBig)?,
                    length: u32::try_from(units.len() - start).map_err(|_| Refused::TooBig)?,
                    ..Default::default()
                }
            }
        });
    }
    Ok((passed, units))
}

/// The block of a call.
#[derive(Clone, Copy, Debug)]
pub struct Block {
    words: [u64; 64],
    len: usize,
}

impl Block {
    /// The block of a call with a mark.
    ///
    /// # Errors
    /// `Unfit` if the arguments are not those of the call, `TooBig` if they need more than 64 words, `NoMemory`.
    pub fn new(call: Number, mark: u64, arguments: &[Argument<'_>]) -> Result<Block, Refused> {
        let (passed, units) = passed(arguments)?;
        let mut block = Block {
            words: [0; 64],
            len: 0,
        };
        // SAFETY: each pointer goes with its length, and none overlaps another.
        let status = unsafe {
            sys::sb_block_encode(
                call as u64,
                mark,
                passed.as_ptr(),
                passed.len(),
                units.as_ptr(),
                units.len(),
                block.words.as_mut_ptr(),
                block.words.len(),
                &mut block.len,
            )
        };
        match status {
            sys::OK => Ok(block),
            sys::NO_MEMORY => Err(Refused::NoMemory),
            sys::TOO_BIG => Err(Refused::TooBig),
            _ => Err(Refused::Unfit),
        }
    }

    /// Its words.
    pub fn words(&self) -> &[u64] {
        &self.words[..self.len]
    }
}

/// What a rule does with a call.
#[derive(Clone, Copy, Debug, PartialEq, Eq)]
pub enum Action {
    /// The call is performed.
    Allow,
    /// The call is denied.
    Deny,
    /// The call is denied, and the rule is one that its author wants to hear of.
    Alarm,
    /// The call is not performed, and the target is told that it was.
    Fake,
    /// The call is performed with its access cut to the bits that read.
    ReadOnly,
}

/// What a policy says of a call.
#[derive(Clone, Copy, Debug, PartialEq, Eq)]
pub enum Verdict {
    /// The rule on this line of the text decides.
    Rule { line: u32, action: Action },
    /// No rule holds, so the call is denied.
    NoRule,
}

fn verdict(has_rule: u32, line: u32, action: u32) -> Verdict {
    if has_rule == 0 {
        return Verdict::NoRule;
    }
    Verdict::Rule {
        line,
        action: match action {
            0 => Action::Allow,
            1 => Action::Deny,
            2 => Action::Alarm,
            3 => Action::Fake,
            _ => Action::ReadOnly,
        },
    }
}

/// Why a text is not loaded.
#[derive(Clone, Copy, Debug, PartialEq, Eq)]
pub enum NotLoaded {
    /// The first fault of the text: its line from 1, its column from 1 (0 if no place in a line is meant), and its number from 1 to 13.
    Fault { line: u32, column: u32, number: u64 },
    /// The text has more than 4,194,304 bytes.
    TooLong,
    /// There was no memory.
    NoMemory,
}

impl fmt::Display for NotLoaded {
    fn fmt(&self, f: &mut fmt::Formatter<'_>) -> fmt::Result {
        match self {
            NotLoaded::Fault {
                line,
                column,
                number,
            } => write!(f, "line {line}, column {column}: fault {number}"),
            NotLoaded::TooLong => f.write_str("the text has more than 4,194,304 bytes"),
            NotLoaded::NoMemory => f.write_str("out of memory"),
        }
    }
}

impl Error for NotLoaded {}

/// Policies, which were read from a text. They stay on the thread that loaded them.
///
/// ```
/// use sandbox_broker::{Action, Argument, Number, Policies, Verdict};
///
/// let mut policies = Policies::load("sandbox-policy 1\npolicy web\nallow ping\n").unwrap();
/// let web = policies.find("web").unwrap();
/// let verdict = policies.judge(web, Number::Ping, &[Argument::Number(1), Argument::Text("hello")]);
/// assert_eq!(verdict, Ok(Verdict::Rule { line: 3, action: Action::Allow }));
/// ```
pub struct Policies(sys::Handle);

impl Drop for Policies {
    fn drop(&mut self) {
        // SAFETY: the handle is a value of this process that nobody else has.
        unsafe { sys::sb_free(&mut self.0) };
    }
}

impl Policies {
    /// Reads the policies of a text.
    ///
    /// # Errors
    /// `Fault` exactly if the text has one, `TooLong`, `NoMemory`.
    pub fn load(text: &str) -> Result<Policies, NotLoaded> {
        let mut policies = Policies(sys::Handle {
            live: 0,
            at: std::ptr::null_mut(),
        });
        policies.reload(text)?;
        Ok(policies)
    }

    /// Reads the policies of a text in place of these, which stay if it is not loaded.
    ///
    /// # Errors
    /// As for `load`.
    pub fn reload(&mut self, text: &str) -> Result<(), NotLoaded> {
        let mut fault = sys::TextFault::default();
        // SAFETY: the pointer goes with its length, and the handle and the fault are other places.
        match unsafe { sys::sb_policies_load(&mut self.0, text.as_ptr(), text.len(), &mut fault) } {
            sys::OK => Ok(()),
            sys::NO_MEMORY => Err(NotLoaded::NoMemory),
            sys::FAULT => Err(NotLoaded::Fault {
                line: fault.line,
                column: fault.column,
                number: fault.number,
            }),
            _ => Err(NotLoaded::TooLong),
        }
    }

    /// How many policies there are.
    pub fn len(&mut self) -> usize {
        // SAFETY: the handle is a value of this process that nobody else has.
        unsafe { sys::sb_policies_count(&mut self.0) }
    }

    /// Whether there are none.
    pub fn is_empty(&mut self) -> bool {
        self.len() == 0
    }

    /// The number, from 0, of the policy of this name.
    pub fn find(&mut self, name: &str) -> Option<u32> {
        let mut number = 0;
        // SAFETY: the pointer goes with its length, and the handle and the number are other places.
        match unsafe { sys::sb_policies_find(&mut self.0, name.as_ptr(), name.len(), &mut number) }
        {
            sys::OK => Some(number),
            _ => None,
        }
    }

    /// The name of the policy with this number. None exactly if there is no such policy.
    pub fn name(&mut self, number: u32) -> Option<String> {
        let mut name = vec![0u8; 16];
        loop {
            let mut count = 0;
            // SAFETY: the pointer goes with its length, and the handle and the count are other places.
            match unsafe {
                sys::sb_policies_name(
                    &mut self.0,
                    number,
                    name.as_mut_ptr(),
                    name.len(),
                    &mut count,
                )
            } {
                sys::OK => {
                    name.truncate(count);
                    return String::from_utf8(name).ok();
                }
                sys::NO_ROOM => name.resize(2 * name.len(), 0),
                _ => return None,
            }
        }
    }

    /// The verdict of the policy with this number on a call.
    ///
    /// # Errors
    /// `Unfit` exactly if there is no such policy, or the arguments are not those of the call. `NoMemory`.
    pub fn judge(
        &mut self,
        policy: u32,
        call: Number,
        arguments: &[Argument<'_>],
    ) -> Result<Verdict, Refused> {
        let (passed, units) = passed(arguments)?;
        let mut said = sys::CallVerdict::default();
        // SAFETY: each pointer goes with its length, and none overlaps another.
        match unsafe {
            sys::sb_judge(
                &mut self.0,
                policy,
                call as u64,
                passed.as_ptr(),
                passed.len(),
                units.as_ptr(),
                units.len(),
                &mut said,
            )
        } {
            sys::OK => Ok(verdict(said.has_rule, said.line, said.action)),
            sys::NO_MEMORY => Err(Refused::NoMemory),
            _ => Err(Refused::Unfit),
        }
    }
}

/// The one next step of a worker.
#[derive(Clone, Copy, Debug, PartialEq, Eq)]
pub enum WorkerStep {
    /// A step on a word of a channel.
    Word(Step),
    /// The turn is to be taken, if several workers perform on the same objects. It finds 1 if it was taken, and 0 if not.
    Take,
    /// The copy is to be decided, performed if that is granted, and replied to.
    Answer,
    /// The turn is to be given back.
    Give,
}

/// What is decided of a copy.
#[derive(Clone, Debug, PartialEq, Eq)]
pub enum Decision {
    /// The call with this number is to be performed with these arguments and no others, by the rule on this line.
    Performed {
        call: u32,
        line: u32,
        arguments: Vec<Granted>,
    },
    /// The copy has this fault, from 1 to 10.
    Refused { fault: u32 },
    /// The call is denied.
    Denied { call: u32, verdict: Verdict },
    /// The call is not performed, and its caller is told that it was.
    Faked { call: u32, line: u32 },
}

/// An argument that is granted.
#[derive(Clone, Debug, PartialEq, Eq)]
pub enum Granted {
    /// A number, also a handle.
    Number(u64),
    /// The UTF-16 units of a text or a name.
    Text(Vec<u16>),
}

fn granted(argument: &sys::Argument, units: &[u16]) -> Granted {
    if argument.is_text == 0 {
        Granted::Number(argument.number)
    } else {
        Granted::Text(units[..argument.length as usize].to_vec())
    }
}

/// What a host answers to a call that it performed.
#[derive(Clone, Copy, Debug, Default, PartialEq, Eq)]
pub struct Answer {
    /// A Windows status code.
    pub status: u32,
    /// The handle that the target is granted, or 0.
    pub handle: u64,
    /// How many of the extended words count, at most 7.
    pub count: u32,
    /// The extended words.
    pub words: [u64; 7],
}

/// The worker of a target. It stays on the thread that made it.
pub struct Worker(sys::Handle);

impl Drop for Worker {
    fn drop(&mut self) {
        // SAFETY: the handle is a value of this process that nobody else has.
        unsafe { sys::sb_free(&mut self.0) };
    }
}

impl Worker {
    fn made(
        make: unsafe extern "C" fn(*mut sys::Handle, u32) -> u32,
        channels: u32,
    ) -> Result<Worker, Refused> {
        let mut worker = Worker(sys::Handle {
            live: 0,
            at: std::ptr::null_mut(),
        });
        // SAFETY: the handle is a value of this process that nobody else has.
        match unsafe { make(&mut worker.0, channels) } {
            sys::OK => Ok(worker),
            sys::NO_MEMORY => Err(Refused::NoMemory),
            _ => Err(Refused::Unfit),
        }
    }

    /// The worker of a target with 1 to 8 channels, which no worker has served.
    ///
    /// # Errors
    /// `Unfit` exactly if there are fewer or more channels. `NoMemory`.
    pub fn new(channels: u32) -> Result<Worker, Refused> {
        Worker::made(sys::sb_worker_new, channels)
    }

    /// The worker of a target whose 1 to 8 channels had a worker that makes no more steps.
    ///
    /// # Errors
    /// As for `new`.
    pub fn adopt(channels: u32) -> Result<Worker, Refused> {
        Worker::made(sys::sb_worker_adopt, channels)
    }

    /// Its one next step.
    pub fn plan(&mut self) -> WorkerStep {
        let mut step = sys::Step::default();
        // SAFETY: both are values of this process, in different places.
        unsafe { sys::sb_worker_plan(&mut self.0, &mut step) };
        match step.kind {
            4 => WorkerStep::Take,
            5 => WorkerStep::Answer,
            6 => WorkerStep::Give,
            _ => WorkerStep::Word(Step::of(&step)),
        }
    }

    /// Goes on by what its next step found: a load or an exchange the value that was there, the turn any number but 0 if it was taken, and of a store, or of
    /// the turn given back, any number.
    ///
    /// # Errors
    /// `Unfit` exactly if its next step is the answer.
    pub fn after(&mut self, found: u64) -> Result<(), Refused> {
        // SAFETY: the handle is a value of this process that nobody else has.
        match unsafe { sys::sb_worker_after(&mut self.0, found) } {
            sys::OK => Ok(()),
            _ => Err(Refused::Unfit),
        }
    }

    /// Decides the copy by the policy with this number.
    ///
    /// # Errors
    /// `Unfit` exactly if its next step is not the answer, the copy is decided already, or there is no such policy. `NoMemory`.
    pub fn decide(&mut self, policies: &mut Policies, policy: u32) -> Result<Decision, Refused> {
        let mut decision = sys::CopyDecision::default();
        // SAFETY: the handles and the decision are values of this process, in different places.
        match unsafe { sys::sb_worker_decide(&mut self.0, &mut policies.0, policy, &mut decision) }
        {
            sys::OK => {}
            sys::NO_MEMORY => return Err(Refused::NoMemory),
            _ => return Err(Refused::Unfit),
        }
        let (call, line) = (decision.call, decision.line);
        Ok(match decision.outcome {
            0 => Decision::Performed {
                call,
                line,
                arguments: (0..decision.arguments)
                    .filter_map(|number| self.argument(number as u32))
                    .collect(),
            },
            1 => Decision::Refused {
                fault: decision.fault,
            },
            2 => Decision::Denied {
                call,
                verdict: verdict(decision.has_rule, line, decision.action),
            },
            _ => Decision::Faked { call, line },
        })
    }

    // The argument with this number that is granted. A string of a block has at most 256 units.
    fn argument(&mut self, number: u32) -> Option<Granted> {
        let (mut argument, mut units) = (sys::Argument::default(), [0u16; 256]);
        // SAFETY: the pointer goes with its length, and the handle and the argument are other places.
        match unsafe {
            sys::sb_worker_argument(
                &mut self.0,
                number,
                &mut argument,
                units.as_mut_ptr(),
                units.len(),
            )
        } {
            sys::OK => Some(granted(&argument, &units)),
            _ => None,
        }
    }

    /// The arguments of the call that the copy to answer asks for, whatever is decided of it: for logs, and never to be performed. None if there is no copy to
    /// answer, or it has a fault.
    ///
    /// # Errors
    /// `NoMemory`.
    pub fn asked(&mut self) -> Result<Option<Vec<Granted>>, Refused> {
        let mut asked = Vec::new();
        loop {
            let (mut argument, mut units) = (sys::Argument::default(), [0u16; 256]);
            // SAFETY: the pointer goes with its length, and the handle and the argument are other places.
            match unsafe {
                sys::sb_worker_asked(
                    &mut self.0,
                    asked.len() as u32,
                    &mut argument,
                    units.as_mut_ptr(),
                    units.len(),
                )
            } {
                sys::OK => asked.push(granted(&argument, &units)),
                sys::NO_MEMORY => return Err(Refused::NoMemory),
                // Each call has an argument, so a copy without one asks for none.
                _ if asked.is_empty() => return Ok(None),
                _ => return Ok(Some(asked)),
            }
        }
    }

    /// Goes on from the answer by the reply to what was decided: the host's answer if the call is performed, and else what the decision says.
    ///
    /// # Errors
    /// `Unfit` exactly if its next step is not the answer, or nothing is decided.
    pub fn reply(&mut self, answer: &Answer) -> Result<(), Refused> {
        let answer = sys::HostAnswer {
            status: answer.status,
            count: answer.count,
            handle: answer.handle,
            words: answer.words,
        };
        // SAFETY: both are values of this process, in different places.
        match unsafe { sys::sb_worker_reply(&mut self.0, &answer) } {
            sys::OK => Ok(()),
            _ => Err(Refused::Unfit),
        }
    }
}

/// What a check says of a copy.
#[derive(Clone, Copy, Debug, PartialEq, Eq)]
pub enum Checked {
    /// It has no fault.
    Whole,
    /// Its first fault: a number from 1 to 10, and its values, at most two.
    Fault { number: u32, values: [u64; 2] },
    /// A worker makes no such copy.
    NoCopy,
}

/// Looks for the first fault of a copy, before which this count and this end were loaded. The words are a copy, never the channel.
pub fn check(count: u64, end: u64, words: &[u64]) -> Checked {
    let mut fault = sys::CopyFault::default();
    // SAFETY: the pointer goes with its length, and the fault is another place.
    match unsafe { sys::sb_block_check(count, end, words.as_ptr(), words.len(), &mut fault) } {
        sys::OK => Checked::Whole,
        sys::FAULT => Checked::Fault {
            number: fault.number,
            values: fault.values,
        },
        _ => Checked::NoCopy,
    }
}

/// The one next step of a call. Channels are numbered from 0, words of a channel from 0 (its state) to 64. Each step is one atomic, sequentially consistent
/// step of that word.
#[derive(Clone, Copy, Debug, PartialEq, Eq)]
pub enum Step {
    /// Nothing: no call goes on.
    Idle,
    /// A load, which finds a value.
    Load { channel: usize, word: usize },
    /// A store.
    Store {
        channel: usize,
        word: usize,
        value: u64,
    },
    /// `value` is stored if the word is `expected`; it finds what the word was.
    Exchange {
        channel: usize,
        word: usize,
        expected: u64,
        value: u64,
    },
}

impl Step {
    fn of(step: &sys::Step) -> Step {
        let (channel, word) = (step.channel as usize, step.word as usize);
        match step.kind {
            1 => Step::Load { channel, word },
            2 => Step::Store {
                channel,
                word,
                value: step.value,
            },
            3 => Step::Exchange {
                channel,
                word,
                expected: step.expected,
                value: step.value,
            },
            _ => Step::Idle,
        }
    }
}

/// How a call ended.
#[derive(Clone, Copy, Debug, PartialEq, Eq)]
pub enum Ending {
    /// By a reply: its outcome, its Windows status code, the handle that was granted or 0, and how many of the extended words it has.
    Reply {
        channel: u32,
        outcome: u64,
        status: u64,
        handle: u64,
        count: usize,
        words: [u64; 7],
    },
    /// By a reply to another mark.
    Foreign { channel: u32, mark: u64 },
    /// No channel was free.
    NoChannel,
    /// The channel was no longer the call's: its state was this one.
    SendLost { channel: u32, found: u64 },
    /// The call waited no more.
    TimedOut { channel: u32 },
}

/// A call of a target, from its block to its end.
#[derive(Clone)]
pub struct Call(Box<sys::ClientCall>);

impl Default for Call {
    fn default() -> Call {
        Call::new()
    }
}

impl Call {
    /// No call.
    pub fn new() -> Call {
        Call(Box::new(sys::ClientCall {
            channels: 0,
            channel: 0,
            phase: 0,
            at: 0,
            len: 0,
            all_abandoned: 0,
            patience: 0,
            count: 0,
            found: 0,
            block: [0; 64],
            reply: [0; 12],
        }))
    }

    /// Begins a call on the 1 to 8 channels of a target. With a patience it gives up after as many rounds of tries, or loads of the state of its channel;
    /// with patience 0 it never does. The mark of the block is not 0, and calls whose replies must not be mistaken for each other have different marks.
    ///
    /// # Errors
    /// `Unfit` exactly if one of these does not hold, or a call goes on.
    pub fn begin(&mut self, channels: u32, patience: u64, block: &Block) -> Result<(), Refused> {
        let words = block.words();
        // SAFETY: the pointer goes with its length, and the call is another place.
        match unsafe {
            sys::sb_call_begin(
                &mut *self.0,
                channels,
                patience,
                words.as_ptr(),
                words.len(),
            )
        } {
            sys::OK => Ok(()),
            _ => Err(Refused::Unfit),
        }
    }

    /// Its one next step.
    pub fn plan(&self) -> Step {
        let mut step = sys::Step::default();
        // SAFETY: both are values of this process, in different places.
        unsafe { sys::sb_call_plan(&*self.0, &mut step) };
        Step::of(&step)
    }

    /// Goes on by the value that its next step found; of a store any number.
    pub fn after(&mut self, found: u64) {
        // SAFETY: the call is a value of this process.
        unsafe { sys::sb_call_after(&mut *self.0, found) }
    }

    /// How it ended. None if it goes on or none began.
    pub fn ending(&self) -> Option<Ending> {
        let mut ending = sys::CallEnding::default();
        // SAFETY: both are values of this process, in different places.
        unsafe { sys::sb_call_result(&*self.0, &mut ending) };
        let channel = ending.channel;
        match ending.kind {
            1 => Some(Ending::Reply {
                channel,
                outcome: ending.outcome,
                status: ending.status,
                handle: ending.handle,
                count: ending.count as usize,
                words: ending.words,
            }),
            2 => Some(Ending::Foreign {
                channel,
                mark: ending.found,
            }),
            3 => Some(Ending::NoChannel),
            4 => Some(Ending::SendLost {
                channel,
                found: ending.found,
            }),
            5 => Some(Ending::TimedOut { channel }),
            _ => None,
        }
    }
}

type Literal = unsafe extern "C" fn(*const u16, usize, *mut u8, usize, *mut usize) -> u32;

fn literal(write: Literal, string: &str) -> Result<String, Refused> {
    let units: Vec<u16> = string.encode_utf16().collect();
    // at most three bytes a unit, and a question mark takes two units of a pattern
    let mut text = vec![0u8; 3 * units.len() + units.len() + 1];
    let mut count = 0;
    // SAFETY: each pointer goes with its length, and none overlaps another.
    match unsafe {
        write(
            units.as_ptr(),
            units.len(),
            text.as_mut_ptr(),
            text.len(),
            &mut count,
        )
    } {
        sys::OK => {
            text.truncate(count);
            String::from_utf8(text).map_err(|_| Refused::NoLiteral)
        }
        sys::NO_MEMORY | sys::NO_ROOM => Err(Refused::NoMemory),
        _ => Err(Refused::NoLiteral),
    }
}

/// What is written between quotes after `is` in a policy so that it means exactly this string.
///
/// # Errors
/// `NoLiteral` exactly if there is none: the string has a `"`, a character below U+0020 or more than 256 UTF-16 units. `NoMemory`.
pub fn string_literal(string: &str) -> Result<String, Refused> {
    literal(sys::sb_string_literal, string)
}

/// What is written between quotes as a pattern so that it matches exactly the strings that are the same as this one.
///
/// # Errors
/// `NoLiteral` exactly if there is none: as for `string_literal`, or the string has a `*`, and each `?` counts twice. `NoMemory`.
pub fn pattern_literal(string: &str) -> Result<String, Refused> {
    literal(sys::sb_pattern_literal, string)
}
