//! Calls on one channel in this process, whose broker is played by the test.
use sandbox_broker::{
    check, pattern_literal, string_literal, version, Action, Answer, Argument, Block, Call,
    Checked, Condition, Decision, Draft, Ending, Granted, NotLoaded, Number, Policies, Refused,
    Step, Verdict, Worker, WorkerStep,
};

/// The words of one channel: its state, and the 64 words of a block.
struct Channel([u64; 65]);

impl Channel {
    fn free() -> Channel {
        let mut words = [0; 65];
        words[0] = 1;
        Channel(words)
    }

    /// Makes a step, and gives what it found.
    fn make(&mut self, step: Step) -> u64 {
        match step {
            Step::Idle => 0,
            Step::Load { word, .. } => self.0[word],
            Step::Store { word, value, .. } => {
                self.0[word] = value;
                0
            }
            Step::Exchange {
                word,
                expected,
                value,
                ..
            } => {
                let found = self.0[word];
                if found == expected {
                    self.0[word] = value;
                }
                found
            }
        }
    }

    /// The reply to a mark.
    fn reply(&mut self, mark: u64) {
        self.0[4..16].copy_from_slice(&[mark, 0, 0, 8, 1, 7, 0, 0, 0, 0, 0, 0]);
        self.0[0] = 4;
    }
}

fn query() -> Block {
    Block::new(Number::FileQuery, 0x10001, &[Argument::Text("\\docs\\a")]).unwrap()
}

#[test]
fn the_header_is_that_of_the_library() {
    assert_eq!(version(), 1);
}

#[test]
fn a_call_has_the_reply_to_its_mark() {
    let (mut channel, mut call, block) = (Channel::free(), Call::new(), query());
    assert_eq!(call.ending(), None);
    assert_eq!(call.begin(1, 0, &block), Ok(()));
    assert_eq!(call.begin(1, 0, &block), Err(Refused::Unfit));
    while call.plan() != Step::Idle {
        if channel.0[0] == 3 {
            assert_eq!(&channel.0[1..1 + block.words().len()], block.words());
            channel.reply(0x10001);
        }
        let found = channel.make(call.plan());
        call.after(found);
    }
    assert_eq!(
        call.ending(),
        Some(Ending::Reply {
            channel: 0,
            outcome: 0,
            status: 0,
            handle: 8,
            count: 1,
            words: [7, 0, 0, 0, 0, 0, 0]
        })
    );
    assert_eq!(channel.0[0], 1);
}

#[test]
fn a_reply_to_another_mark_is_foreign() {
    let (mut channel, mut call) = (Channel::free(), Call::new());
    call.begin(1, 0, &query()).unwrap();
    while call.plan() != Step::Idle {
        if channel.0[0] == 3 {
            channel.reply(9);
        }
        let found = channel.make(call.plan());
        call.after(found);
    }
    assert_eq!(
        call.ending(),
        Some(Ending::Foreign {
            channel: 0,
            mark: 9
        })
    );
}

#[test]
fn what_does_not_fit_is_refused() {
    assert_eq!(
        Block::new(Number::FileQuery, 1, &[]).unwrap_err(),
        Refused::Unfit
    );
    assert_eq!(
        Block::new(
            Number::FileQuery,
            1,
            &[Argument::Text(&format!("\\{}", "a".repeat(300)))]
        )
        .unwrap_err(),
        Refused::TooBig
    );
    assert_eq!(Call::new().begin(9, 0, &query()), Err(Refused::Unfit));
    assert_eq!(
        Call::new().begin(
            1,
            0,
            &Block::new(Number::FileQuery, 0, &[Argument::Text("\\a")]).unwrap()
        ),
        Err(Refused::Unfit)
    );
}

#[test]
fn a_changed_copy_has_a_fault() {
    let block = query();
    let mut words = block.words().to_vec();
    let end = words.len() as u64;
    assert_eq!(check(1, end, &words), Checked::Whole);
    words[0] = 99;
    assert_eq!(
        check(1, end, &words),
        Checked::Fault {
            number: 7,
            values: [99, 0]
        }
    );
    assert_eq!(check(1, end + 1, &words), Checked::NoCopy);
}

#[test]
fn literals_mean_exactly_their_string() {
    assert_eq!(string_literal("\\a*").as_deref(), Ok("\\a*"));
    assert_eq!(pattern_literal("\\a?").as_deref(), Ok("\\a/?"));
    assert_eq!(pattern_literal("\\a*"), Err(Refused::NoLiteral));
    assert_eq!(string_literal("a\"b"), Err(Refused::NoLiteral));
    assert_eq!(
        string_literal(&"ä".repeat(256)).map(|text| text.len()),
        Ok(512)
    );
}

#[test]
fn policies_judge_calls() {
    let text =
        "sandbox-policy 1\npolicy web\ndeny ping when text is \"\"\nallow ping\npolicy none\n";
    let mut policies = Policies::load(text).unwrap();
    assert_eq!(policies.len(), 2);
    assert_eq!(policies.find("web"), Some(0));
    assert_eq!(policies.find("we"), None);
    assert_eq!(policies.name(1).as_deref(), Some("none"));
    assert_eq!(policies.name(2), None);
    let rule = |line, action| Ok(Verdict::Rule { line, action });
    let ping = |policies: &mut Policies, policy, text| {
        policies.judge(
            policy,
            Number::Ping,
            &[Argument::Number(1), Argument::Text(text)],
        )
    };
    assert_eq!(ping(&mut policies, 0, ""), rule(3, Action::Deny));
    assert_eq!(ping(&mut policies, 0, "hello"), rule(4, Action::Allow));
    assert_eq!(ping(&mut policies, 1, "hello"), Ok(Verdict::NoRule));
    assert_eq!(ping(&mut policies, 2, "hello"), Err(Refused::Unfit));
    assert_eq!(
        policies.judge(0, Number::Ping, &[Argument::Number(1)]),
        Err(Refused::Unfit)
    );
    // What was loaded stays after a text with a fault.
    let refused = policies.reload("sandbox-policy 1\npolicy web\nallow nothing\n");
    assert!(matches!(
        refused,
        Err(NotLoaded::Fault {
            line: 3,
            number: 4,
            ..
        })
    ));
    assert_eq!(ping(&mut policies, 0, "hello"), rule(4, Action::Allow));
    policies.reload("sandbox-policy 1\npolicy web\n").unwrap();
    assert_eq!(ping(&mut policies, 0, "hello"), Ok(Verdict::NoRule));
}

#[test]
fn a_worker_answers_a_call_by_a_policy() {
    let mut policies = Policies::load("sandbox-policy 1\npolicy web\nallow ping\n").unwrap();
    assert!(Worker::new(0).is_err() && Worker::new(9).is_err());
    let (mut worker, mut channel, mut call) =
        (Worker::new(1).unwrap(), Channel::free(), Call::new());
    let block = Block::new(
        Number::Ping,
        7,
        &[Argument::Number(5), Argument::Text("hi")],
    )
    .unwrap();
    call.begin(1, 0, &block).unwrap();
    let mut answered = 0;
    while call.ending().is_none() {
        let step = call.plan();
        let found = channel.make(step);
        call.after(found);
        match worker.plan() {
            WorkerStep::Word(step) => {
                let found = channel.make(step);
                worker.after(found).unwrap();
            }
            WorkerStep::Take | WorkerStep::Give => worker.after(1).unwrap(),
            WorkerStep::Answer => {
                let answer = Answer {
                    count: 1,
                    words: [9, 0, 0, 0, 0, 0, 0],
                    ..Answer::default()
                };
                assert_eq!(worker.after(0), Err(Refused::Unfit));
                assert_eq!(worker.reply(&answer), Err(Refused::Unfit));
                let arguments = vec![
                    Granted::Number(5),
                    Granted::Text("hi".encode_utf16().collect()),
                ];
                assert_eq!(
                    worker.decide(&mut policies, 0),
                    Ok(Decision::Performed {
                        call: 1,
                        line: 3,
                        arguments
                    })
                );
                assert_eq!(worker.decide(&mut policies, 0), Err(Refused::Unfit));
                worker.reply(&answer).unwrap();
                answered += 1;
            }
        }
    }
    assert_eq!(answered, 1);
    assert!(matches!(
        call.ending(),
        Some(Ending::Reply {
            outcome: 0,
            status: 0,
            count: 1,
            words: [9, ..],
            ..
        })
    ));
}

/// Makes the steps of a worker until its answer, or until it has looked twice at the channel and found nothing.
fn come_to_the_answer(worker: &mut Worker, channel: &mut Channel) -> bool {
    let mut looks = 0;
    while looks < 2 {
        match worker.plan() {
            WorkerStep::Word(step) => {
                let found = channel.make(step);
                looks += u32::from(matches!(step, Step::Load { word: 0, .. }) && found != 3);
                worker.after(found).unwrap();
            }
            WorkerStep::Take | WorkerStep::Give => worker.after(1).unwrap(),
            WorkerStep::Answer => return true,
        }
    }
    false
}

/// A channel on which this call is handed over.
fn handed_over(block: &Block) -> Channel {
    let mut channel = Channel::free();
    channel.0[1..1 + block.words().len()].copy_from_slice(block.words());
    channel.0[0] = 3;
    channel
}

#[test]
fn what_is_asked_for_is_told_whatever_is_granted() {
    let text = "sandbox-policy 2\npolicy web\nreadonly file.open when name like \"\\docs\\*\"\n";
    let mut policies = Policies::load(text).unwrap();
    let arguments = [
        Argument::Text("\\docs\\a"),
        Argument::Number(0x4000_0001),
        Argument::Number(1),
        Argument::Number(0),
    ];
    let mut channel = handed_over(&Block::new(Number::FileOpen, 1, &arguments).unwrap());
    let mut worker = Worker::new(1).unwrap();
    assert_eq!(worker.asked(), Ok(None));
    assert!(come_to_the_answer(&mut worker, &mut channel));
    let with_access = |access| {
        vec![
            Granted::Text("\\docs\\a".encode_utf16().collect()),
            Granted::Number(access),
            Granted::Number(1),
            Granted::Number(0),
        ]
    };
    assert_eq!(worker.asked(), Ok(Some(with_access(0x4000_0001))));
    let decided = worker.decide(&mut policies, 0).unwrap();
    assert!(
        matches!(&decided, Decision::Performed { arguments, .. } if *arguments == with_access(1))
    );
    assert_eq!(worker.asked(), Ok(Some(with_access(0x4000_0001))));
    worker.reply(&Answer::default()).unwrap();
    assert_eq!(worker.asked(), Ok(None));
}

#[test]
fn a_copy_with_a_fault_asks_for_nothing() {
    let mut policies = Policies::load("sandbox-policy 1\npolicy web\nallow ping\n").unwrap();
    let mut channel = handed_over(&query());
    channel.0[1] = 99;
    let mut worker = Worker::new(1).unwrap();
    assert!(come_to_the_answer(&mut worker, &mut channel));
    assert_eq!(worker.asked(), Ok(None));
    assert_eq!(
        worker.decide(&mut policies, 0),
        Ok(Decision::Refused { fault: 7 })
    );
}

#[test]
fn a_channel_of_a_worker_given_up_is_adopted_and_its_call_is_lost() {
    // The worker is given up between the decision and the reply, when the host may have performed the call.
    let mut policies = Policies::load("sandbox-policy 1\npolicy web\nallow file.query\n").unwrap();
    let mut channel = handed_over(&query());
    let mut worker = Worker::new(1).unwrap();
    assert!(come_to_the_answer(&mut worker, &mut channel));
    assert!(matches!(
        worker.decide(&mut policies, 0),
        Ok(Decision::Performed { .. })
    ));
    drop(worker);
    let mut adopting = Worker::adopt(1).unwrap();
    assert!(!come_to_the_answer(&mut adopting, &mut channel));
    assert_eq!(channel.0[0], 5);
    // A host that frees the channel then, as it did at the start, is served again.
    channel = handed_over(&query());
    assert!(come_to_the_answer(&mut adopting, &mut channel));
}

#[test]
fn drafts_are_loaded_and_mean_what_they_say() {
    let mut draft = Draft::new();
    assert_eq!(draft.policy("a b"), Err(Refused::Unfit));
    draft.policy("tab").unwrap();
    let unfit = Condition::Has("access has 1\nallow ping when cookie", 1);
    assert_eq!(
        draft.rule(Action::Allow, Number::FileOpen, &[unfit]),
        Err(Refused::Unfit)
    );
    let folders = [
        Condition::IsBelow("name", "\\ok\"\nallow ping"),
        Condition::IsBelow("name", "\\*"),
    ];
    for folder in folders {
        assert_eq!(
            draft.rule(Action::Allow, Number::FileQuery, &[folder]),
            Err(Refused::NoLiteral)
        );
    }
    let conditions = [
        Condition::IsBelow("name", "\\docs?"),
        Condition::HasNone("access", 0x5fed_ff56),
    ];
    draft
        .rule(Action::Allow, Number::FileOpen, &conditions)
        .unwrap();
    draft
        .rule(
            Action::Deny,
            Number::Ping,
            &[
                Condition::IsSame("text", "*"),
                Condition::IsOneOf("cookie", &[1, 2]),
            ],
        )
        .unwrap();
    draft.rule(Action::Allow, Number::Ping, &[]).unwrap();
    let mut policies = Policies::load(draft.text()).unwrap();
    let rule = |line, action| Ok(Verdict::Rule { line, action });
    let mut open = |name, access| {
        policies.judge(
            0,
            Number::FileOpen,
            &[
                Argument::Text(name),
                Argument::Number(access),
                Argument::Number(0),
                Argument::Number(0),
            ],
        )
    };
    assert_eq!(open("\\DOCS?\\a", 1), rule(3, Action::Allow));
    assert_eq!(open("\\docsx\\a", 1), Ok(Verdict::NoRule));
    assert_eq!(open("\\docs?\\a", 2), Ok(Verdict::NoRule));
    let mut ping = |cookie, text| {
        policies.judge(
            0,
            Number::Ping,
            &[Argument::Number(cookie), Argument::Text(text)],
        )
    };
    assert_eq!(ping(2, "*"), rule(4, Action::Deny));
    assert_eq!(ping(3, "*"), rule(5, Action::Allow));
    assert_eq!(ping(2, "x"), rule(5, Action::Allow));
}
