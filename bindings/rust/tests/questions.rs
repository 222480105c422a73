//! Each question answered no once, through the library, with what a refusal promises: block, counts, output and area untouched.
use plumtree::{
    alike, area_size, block_size, longest_content, raw, rewrite, Action, Announced, Area, Delivery, Error, Event, Id, Limit, Limits,
    LinkRoom, Message, Panel, Settings, Stats, Timer, GREATEST_MESSAGE_SIZE, LEAST_MESSAGE_SIZE,
};

const LIMITS: [fn(&mut Limits) -> &mut usize; 9] = [
    |l| &mut l.neighbours,
    |l| &mut l.received,
    |l| &mut l.cached,
    |l| &mut l.content,
    |l| &mut l.grafted,
    |l| &mut l.missing,
    |l| &mut l.timers,
    |l| &mut l.queued,
    |l| &mut l.dropped,
];

const DURATIONS: [fn(&mut Settings) -> &mut u64; 6] = [
    |s| &mut s.config.graft_timeout_1,
    |s| &mut s.config.graft_timeout_2,
    |s| &mut s.config.dispatch_timeout,
    |s| &mut s.config.message_cache_retention,
    |s| &mut s.config.message_id_retention,
    |s| &mut s.config.cache_evict_interval,
];

const SOME: Stats = Stats { payload_messages_received: 5, control_messages_received: 6, max_last_delivery_hop: 7 };

/// The answer to a creation in a block of this length; a refused one has left block and counts as they were.
fn create(length: usize, settings: Settings, limits: Limits) -> u8 {
    let before = vec![0xa5; length];
    let mut block = before.clone();
    let mut counts = SOME;
    let answer = raw::create(&mut block, &mut counts, settings, limits);
    assert_eq!(answer.length, 0);
    if answer.number == 0 {
        assert_eq!(counts, Stats::default());
    } else {
        assert!(block == before);
        assert_eq!(counts, SOME);
    }
    answer.number
}

/// The specification's sum.
fn need(l: Limits) -> usize {
    4096 + l.content
        + 160 * l.received
        + 256 * l.cached
        + 640 * l.grafted
        + 512 * l.missing
        + 64 * (l.neighbours + l.timers + l.queued + l.dropped)
}

#[test]
fn creation() {
    let settings = Settings::of_panel(1);
    let limits = Limits::SMALL;
    let length = need(limits);
    for (m, number) in
        [(LEAST_MESSAGE_SIZE - 1, 1), (LEAST_MESSAGE_SIZE, 0), (GREATEST_MESSAGE_SIZE, 0), (GREATEST_MESSAGE_SIZE + 1, 1), (u64::MAX, 1)]
    {
        assert_eq!(create(length, Settings { max_message_size: m, ..settings }, limits), number, "M {m}");
    }
    for (i, field) in DURATIONS.iter().enumerate() {
        for (duration, number) in [(0, 0), (1 << 40, 0), ((1 << 40) + 1, 2), (u64::MAX, 2)] {
            let mut s = settings;
            *field(&mut s) = duration;
            assert_eq!(create(length, s, limits), number, "duration {i}: {duration}");
        }
    }
    for (i, field) in LIMITS.iter().enumerate() {
        let ceiling = *field(&mut Limits::CEILINGS.clone());
        for (limit, number) in [(0, 3), (1, 0), (ceiling, 0), (ceiling + 1, 3), (usize::MAX, 3)] {
            let mut l = limits;
            *field(&mut l) = limit;
            let fits = number == 0;
            assert_eq!(block_size(l), fits.then(|| need(l)), "limit {i}: {limit}");
            let length = if fits { need(l) } else { need(Limits::CEILINGS) };
            assert_eq!(create(length, settings, l), number, "limit {i}: {limit}");
            if fits {
                assert_eq!(create(length - 1, settings, l), 4, "limit {i}: {limit}");
                assert_eq!(create(length + 1, settings, l), 0, "limit {i}: {limit}");
            }
        }
    }
    assert_eq!(create(0, settings, limits), 4);
    // The threshold is no duration: every number will do.
    let mut far = settings;
    far.config.optimization_threshold = u16::MAX;
    assert_eq!(create(length, far, limits), 0);
    // In their order.
    let mut wrong = Settings { max_message_size: 0, ..settings };
    wrong.config.dispatch_timeout = u64::MAX;
    assert_eq!(create(0, wrong, Limits { queued: 0, ..limits }), 1);
    wrong.max_message_size = 4094;
    assert_eq!(create(0, wrong, Limits { queued: 0, ..limits }), 2);
    wrong.config.dispatch_timeout = 5;
    assert_eq!(create(0, wrong, Limits { queued: 0, ..limits }), 3);
    assert_eq!(Panel::new(wrong, Limits { queued: 0, ..limits }).unwrap_err(), Error::LimitOutOfRange);
    assert_eq!(Panel::in_block([0; 100], wrong, limits).unwrap_err(), Error::BlockTooShort);
}

/// A panel with the neighbours 2 and 3, and its first event behind it.
fn panel(limits: Limits) -> Panel {
    let mut p = Panel::new(Settings::of_panel(1), limits).unwrap();
    for event in [Event::Up(2), Event::Up(3), Event::Timer(Timer::EvictCache)] {
        p.event(0, &event, &[], &mut [0; 64]).unwrap();
    }
    p
}

/// The bytes of the message that a broadcast of this content sends, with another round.
fn gossip(content: &[u8], round: u16) -> Vec<u8> {
    let mut output = [0; 4096];
    let mut p = panel(Limits::SMALL);
    let mut actions = p.event(0, &Event::Broadcast(content), &[], &mut output).unwrap();
    let Some(Action::Send { message: Message::Gossip { id, content, .. }, .. }) = actions.find(|a| matches!(a, Action::Send { .. })) else {
        panic!("it is sent to 2");
    };
    Message::Gossip { id, content, delivery: Delivery::Swarm { round } }.to_bytes()
}

/// A call that is refused, by this question, and touches nothing.
fn refused(p: &mut Panel, at: u64, event: &[u8], output_length: usize, error: Error) {
    let block = p.block().to_vec();
    let stats = p.stats();
    let mut output = vec![0x5a; output_length];
    assert_eq!(p.event_bytes(at, event, &[], &mut output).unwrap_err(), error);
    assert!(p.block() == block, "{error}");
    assert_eq!(p.stats(), stats, "{error}");
    assert!(output.iter().all(|b| *b == 0x5a), "{error}");
}

#[test]
fn events() {
    let mut p = panel(Limits::SMALL);
    let tick = Event::Timer(Timer::EvictCache).to_bytes();

    // 5: a block that is cut, that never was a panel's, that has another limit.
    let mut short = Panel::resume(p.block()[..p.block().len() - 1].to_vec(), p.stats());
    refused(&mut short, 0, &tick, 64, Error::BlockNotWhole);
    refused(&mut Panel::resume(vec![0; 58_880], Stats::default()), 0, &tick, 64, Error::BlockNotWhole);
    refused(&mut Panel::resume(Vec::new(), Stats::default()), 0, &tick, 64, Error::BlockNotWhole);
    let mut other = Panel::resume(p.block().to_vec(), p.stats());
    other.block_mut()[..64].fill(0xff);
    refused(&mut other, 0, &tick, 64, Error::BlockNotWhole);
    assert_eq!(alike(p.block(), other.block()), Err(Error::BlockNotWhole));
    assert_eq!(alike(other.block(), p.block()), Err(Error::BlockNotWhole));

    refused(&mut p, (1 << 62) + 1, &tick, 64, Error::TimeTooLate);
    refused(&mut p, 0, &[], 64, Error::EventCut);
    refused(&mut p, 0, &[3, 0x80], 64, Error::EventCut);
    refused(&mut p, 0, &[5], 64, Error::EventCut);
    refused(&mut p, 0, &[5, 0x80], 64, Error::EventCut);
    refused(&mut p, 0, &[6], 64, Error::EventMalformed);
    refused(&mut p, 0, &[6, 2], 64, Error::EventMalformed);
    refused(&mut p, 0, &[3, 0x80, 0x00], 64, Error::EventMalformed);
    refused(&mut p, 0, &[5, 0x80, 0x00], 64, Error::EventMalformed);
    refused(&mut p, 0, &[3, 2, 0], 64, Error::EventTooLong);
    refused(&mut p, 0, &[5, 2, 0], 64, Error::EventTooLong);

    // 10: M is 4,094. A content of 4,057 makes a message of 4,094 bytes, at round 128 one more.
    let long = |length: usize, round| {
        let delivery = Delivery::Swarm { round };
        Event::Received { peer: 2, message: Message::Gossip { id: [0; 32], content: &[7; 4096][..length], delivery } }.to_bytes()
    };
    refused(&mut p, 0, &long(4058, 0), 40_960, Error::MessageTooLong);
    refused(&mut p, 0, &long(4057, 128), 40_960, Error::MessageTooLong);
    let mut output = vec![0; 40_960];
    assert!(p.event_bytes(0, &long(4057, 127), &[], &mut output).is_ok());
    // By its bytes as they came: with round 127 as FF 00 it is one too long.
    let mut padded = long(4057, 127);
    *padded.last_mut().unwrap() = 0xff;
    padded.push(0x00);
    refused(&mut p, 0, &padded, 40_960, Error::MessageTooLong);

    // 11: of either count.
    p.stats_mut().control_messages_received = u64::MAX;
    refused(&mut p, 0, &[0, 2, 1], 64, Error::CountsFull);
    p.stats_mut().control_messages_received = 0;
    p.stats_mut().payload_messages_received = u64::MAX;
    assert!(p.event_bytes(0, &[0, 2, 1], &[], &mut output).is_ok());
    let hot = gossip(b"hot", 0);
    refused(&mut p, 0, &Event::ReceivedBytes { peer: 2, bytes: &hot }.to_bytes(), 4096, Error::CountsFull);
    p.stats_mut().payload_messages_received = 0;

    // 12: the last round.
    let far = gossip(b"hot", u16::MAX);
    refused(&mut p, 0, &Event::ReceivedBytes { peer: 2, bytes: &far }.to_bytes(), 4096, Error::NoMoreHops);

    // 13: a third neighbour where two are the limit.
    let mut two = panel(Limits { neighbours: 2, ..Limits::SMALL });
    for (three, four) in [(Event::Up(3), Event::Up(4)), (Event::UpQuiet(3), Event::UpQuiet(4))] {
        refused(&mut two, 0, &four.to_bytes(), 64, Error::LimitReached);
        assert_eq!(two.limit_met(0, &four, &[]), Some(Limit::Neighbours));
        assert_eq!(two.limit_met(0, &three, &[]), None);
    }
    two.event(0, &Event::Down(3), &[], &mut []).unwrap();
    two.event(0, &Event::Up(4), &[], &mut []).unwrap();

    // 14: an eviction schedules itself, four bytes.
    refused(&mut p, 0, &tick, 3, Error::OutputTooShort);
    refused(&mut p, 0, &tick, 0, Error::OutputTooShort);
    let mut four = [0; 4];
    assert_eq!(p.event_bytes(0, &tick, &[], &mut four).unwrap().bytes(), [2, 0xe8, 7, 2]);
}

/// "A broadcast event with byte 1 is turned down": 23, behind 5 to 9 and before 13 and 14, whatever the content, and as the first event too.
#[test]
fn for_neighbours_alone() {
    let retired = |content: &[u8]| {
        let mut event = Event::Broadcast(content).to_bytes();
        *event.last_mut().unwrap() = 1;
        event
    };
    let mut p = Panel::new(Settings::of_panel(1), Limits { received: 1, ..Limits::SMALL }).unwrap();
    let mut output = [0; 4096];
    p.event(0, &Event::Up(2), &[], &mut output).unwrap();
    let turned_down = |p: &mut Panel| {
        for length in [0, 1, 4055, 4058, 5000] {
            let event = retired(&vec![0x41; length]);
            for output_length in [0, 40_960] {
                refused(p, 0, &event, output_length, Error::NeighborsBroadcast);
            }
            assert_eq!(raw::limit_met(p.block(), 0, &event, &[]), 0);
        }
        refused(p, (1 << 62) + 1, &retired(b"A"), 64, Error::TimeTooLate);
        refused(p, 0, &[1, 2, 0x41, 1], 64, Error::EventCut);
        refused(p, 0, &[1, 1, 0x41, 2], 64, Error::EventMalformed);
        refused(p, 0, &[1, 1, 0x41, 0x81, 0x00], 64, Error::EventMalformed);
        refused(p, 0, &[1, 1, 0x41, 1, 0], 64, Error::EventTooLong);
    };
    turned_down(&mut p);
    // It was no first event; and it stays 23 where a broadcast to all panels is 13.
    let tick = p.event(0, &Event::Timer(Timer::DispatchLazyPush), &[], &mut output).unwrap();
    assert_eq!(tick.bytes(), [2, 0xe8, 7, 2]);
    p.event(0, &Event::Broadcast(b"A"), &[], &mut output).unwrap();
    refused(&mut p, 0, &Event::Broadcast(b"B").to_bytes(), 4096, Error::LimitReached);
    turned_down(&mut p);
}

/// "Messages of that delivery from older panels are still read and emitted": each time, since nothing of them is kept.
#[test]
fn a_message_for_neighbours_alone() {
    let swarm = gossip(b"A", 0);
    let Ok(Message::Gossip { id, content, .. }) = Message::read(&swarm) else { panic!("a Gossip") };
    let message = Message::Gossip { id, content, delivery: Delivery::Neighbors };
    let event = Event::Received { peer: 2, message: message.clone() };
    assert_eq!(message.to_bytes(), [&[0], &id[..], &[1, 0x41, 1]].concat());
    let mut p = panel(Limits::SMALL);
    let block = p.block().to_vec();
    let mut output = [0; 4096];
    for n in 1..3 {
        let actions: Vec<_> = p.event(0, &event, &[], &mut output).unwrap().collect();
        assert_eq!(actions, [Action::Emit { peer: 2, content: b"A", delivery: Delivery::Neighbors }]);
        assert_eq!(output[..5], [3, 2, 1, 0x41, 1]);
        assert_eq!(p.stats(), Stats { payload_messages_received: n, ..Stats::default() });
        assert!(p.block() == block);
    }
    refused(&mut p, 0, &event.to_bytes(), 4, Error::OutputTooShort);
}

/// A send can be a byte longer than M, where the round has grown to 128; a panel of the same M then refuses it.
#[test]
fn a_byte_more_than_m() {
    let settings = Settings { max_message_size: 510, ..Settings::of_panel(1) };
    let mut p = Panel::new(settings, Limits::SMALL).unwrap();
    let mut output = [0; 4096];
    for peer in [2, 3] {
        p.event(0, &Event::Up(peer), &[], &mut output).unwrap();
    }
    let came = gossip(&[7; 473], 127);
    assert_eq!(came.len(), 510);
    let mut actions = p.event(0, &Event::ReceivedBytes { peer: 2, bytes: &came }, &[], &mut output).unwrap();
    let Some(Action::Send { peer: 3, bytes, .. }) = actions.find(|a| matches!(a, Action::Send { .. })) else { panic!("it goes on to 3") };
    assert_eq!(bytes.len(), 511);
    let event = Event::ReceivedBytes { peer: 2, bytes };
    assert_eq!(Panel::new(settings, Limits::SMALL).unwrap().event(0, &event, &[], &mut [0; 4096]).unwrap_err(), Error::MessageTooLong);
}

/// Messages with padded numbers lead to the same actions, counts and state as in their shortest form: what is sent and emitted is shortest.
#[test]
fn padded_messages() {
    let hot = gossip(b"hot", 0);
    let Ok(Message::Gossip { id, .. }) = Message::read(&hot) else { panic!("a Gossip") };
    let pairs = [
        // The message's kind, the content's length, the delivery's kind and the round; a round of a message that was received.
        (hot.clone(), [&[0x80, 0x00], &id[..], &[0x83, 0x80, 0x00], b"hot", &[0x80, 0x80, 0x80, 0x80, 0x00, 0x80, 0x80, 0x00]].concat()),
        (hot.clone(), [&hot[..hot.len() - 1], &[0x80, 0x00]].concat()),
        // A Graft for it, which is answered; a count and two rounds of an IHave.
        ([&[2, 1], &id[..], &[1]].concat(), [&[0x82, 0x00, 1], &id[..], &[0x81, 0x00]].concat()),
        (
            [&[3, 2], &[8; 32][..], &[5], &[9; 32], &[6]].concat(),
            [&[3, 0x82, 0x00], &[8; 32][..], &[0x85, 0x00], &[9; 32], &[0x86, 0x80, 0x00]].concat(),
        ),
        (vec![1], vec![0x81, 0x80, 0x80, 0x80, 0x00]),
    ];
    let (mut a, mut b) = (panel(Limits::SMALL), panel(Limits::SMALL));
    for (shortest, padded) in &pairs {
        let actions = |p: &mut Panel, bytes| {
            let mut output = [0; 4096];
            p.event(1, &Event::ReceivedBytes { peer: 2, bytes }, &[], &mut output).unwrap().bytes().to_vec()
        };
        assert_eq!(Message::read(padded).unwrap().to_bytes(), *shortest);
        assert_eq!(actions(&mut a, shortest), actions(&mut b, padded));
        assert_eq!(a.stats(), b.stats());
        assert_eq!(a.alike(&b), Ok(true));
    }
    assert_eq!((a.stats().payload_messages_received, a.stats().control_messages_received), (2, 3));
}

/// 7, 8, 9 and 14 of a message that is rewritten; the output is touched only where it is written, and only as far.
#[test]
fn rewriting() {
    let rewritten = |message: &[u8], length| {
        let mut output = vec![0x5a; length];
        let answer = rewrite(message, &mut output);
        (answer, output)
    };
    let prune = [0x81, 0x80, 0x80, 0x80, 0x00];
    assert_eq!(rewritten(&prune, 5), (Ok(1), vec![1, 0x5a, 0x5a, 0x5a, 0x5a]));
    assert_eq!(rewritten(&prune, 1), (Ok(1), vec![1]));
    assert_eq!(rewritten(&[1], 1), (Ok(1), vec![1]));
    assert_eq!(rewritten(&[2, 0, 0x80, 0x80, 0x00], 3), (Ok(3), vec![2, 0, 0]));
    // Two entries are two messages in the other order; an entry that stands twice stays so.
    let ihave = |count: &[u8], entries: &[(u8, &[u8])]| {
        let entries: Vec<u8> = entries.iter().flat_map(|(id, round)| [&[*id; 32], *round].concat()).collect();
        [&[3], count, &entries].concat()
    };
    for (padded, shortest) in [
        (ihave(&[0x82, 0x00], &[(8, &[0x85, 0x00]), (9, &[6])]), ihave(&[2], &[(8, &[5]), (9, &[6])])),
        (ihave(&[2], &[(9, &[6]), (8, &[0x85, 0x80, 0x00])]), ihave(&[2], &[(9, &[6]), (8, &[5])])),
        (ihave(&[2], &[(8, &[5]), (8, &[0x85, 0x00])]), ihave(&[2], &[(8, &[5]), (8, &[5])])),
    ] {
        assert_eq!(rewritten(&padded, shortest.len()), (Ok(shortest.len()), shortest.clone()));
        assert_eq!(rewritten(&padded, shortest.len() - 1), (Err(Error::OutputTooShort), vec![0x5a; shortest.len() - 1]));
    }
    // The first no gives its number, so 14 is the last. An event is no message: its peer is read as an identifier.
    for (message, error) in [
        (&[][..], Error::EventCut),
        (&[0x81], Error::EventCut),
        (&[2, 0, 0x80, 0x80], Error::EventCut),
        (&Event::Received { peer: 2, message: Message::Prune }.to_bytes(), Error::EventCut),
        (&[4], Error::EventMalformed),
        (&[0x81, 0x80, 0x80, 0x80, 0x80], Error::EventMalformed),
        (&[2, 0, 0x80, 0x80, 0x80, 0x00], Error::EventMalformed),
        (&[2, 0x80, 0x00, 0x00], Error::EventMalformed),
        (&[1, 0], Error::EventTooLong),
        (&[0x81, 0x00, 0x00], Error::EventTooLong),
    ] {
        assert_eq!(rewritten(message, 64), (Err(error), vec![0x5a; 64]), "{message:02x?}");
        assert_eq!(rewritten(message, 0), (Err(error), vec![]), "{message:02x?}");
    }
    assert_eq!(rewritten(&prune, 0), (Err(Error::OutputTooShort), vec![]));
}

/// The longest content goes to both neighbours, a byte more to nobody.
#[test]
fn longest_contents() {
    let sends = |max_message_size, length| {
        let mut p = Panel::new(Settings { max_message_size, ..Settings::of_panel(1) }, Limits::SMALL).unwrap();
        let mut output = vec![0; Limits::SMALL.output_size(max_message_size)];
        for peer in [2, 3] {
            p.event(0, &Event::Up(peer), &[], &mut output).unwrap();
        }
        p.event(0, &Event::Broadcast(&vec![7; length]), &[], &mut output).unwrap().filter(|a| matches!(a, Action::Send { .. })).count()
    };
    for m in [LEAST_MESSAGE_SIZE, GREATEST_MESSAGE_SIZE] {
        let longest = longest_content(m);
        assert_eq!((sends(m, longest), sends(m, longest + 1)), (2, 0), "M {m}");
    }
}

#[test]
fn what_is_beyond_the_length_stays() {
    let mut p = panel(Limits::SMALL);
    let mut output = [0x5a; 64];
    let n = p.event(0, &Event::Timer(Timer::EvictCache), &[], &mut output).unwrap().bytes().len();
    assert_eq!(n, 4);
    assert!(output[4..].iter().all(|b| *b == 0x5a));
}

/// What an EvictCache tells: the identifiers, then that it schedules itself. An output that is a byte short is refused, and nothing is forgotten.
fn evicts(p: &mut Panel, at: u64) -> Vec<Id> {
    let tick = Event::Timer(Timer::EvictCache);
    let mut output = vec![0; Limits::CEILINGS.output_size(GREATEST_MESSAGE_SIZE)];
    let length = p.clone().event(at, &tick, &[], &mut output).unwrap().bytes().len();
    refused(p, at, &tick.to_bytes(), length - 1, Error::OutputTooShort);
    let mut ids = Vec::new();
    let mut actions = p.event(at, &tick, &[], &mut output[..length]).unwrap();
    let schedule = actions.find(|a| match a {
        Action::Forgotten { id } => {
            ids.push(*id);
            false
        }
        _ => true,
    });
    assert!(matches!(schedule, Some(Action::Schedule { timer: Timer::EvictCache, .. })));
    assert!(actions.next().is_none());
    assert_eq!(length, 33 * ids.len() + 4);
    ids
}

/// A broadcast, and its identifier, as the send to a neighbour has it.
fn broadcast(p: &mut Panel, at: u64, content: &[u8]) -> Id {
    let mut output = [0; 4096];
    let mut actions = p.event(at, &Event::Broadcast(content), &[], &mut output).unwrap();
    let id = actions.find_map(|a| match a {
        Action::Send { message: Message::Gossip { id, .. }, .. } => Some(id),
        _ => None,
    });
    id.expect("it is sent to 2")
}

/// What leaves the message cache is told in the order of removal, each once, and again where a return has brought it back.
#[test]
fn what_is_forgotten() {
    let mut settings = Settings::of_panel(1);
    settings.config.message_cache_retention = 5;
    let mut p = Panel::new(settings, Limits::SMALL).unwrap();
    p.event(0, &Event::Up(2), &[], &mut []).unwrap();
    let a = broadcast(&mut p, 0, b"a");
    let mut area = Area::for_panel(&p);
    p.save(&mut area, *b"cached  ").unwrap();
    assert!(evicts(&mut p, 4).is_empty());
    assert_eq!(evicts(&mut p, 5), [a]);
    assert!(evicts(&mut p, 5).is_empty());
    p.go_back(&area, *b"cached  ").unwrap();
    assert_eq!(evicts(&mut p, 6), [a]);
    // Cached anew meanwhile: once, with its later time.
    broadcast(&mut p, 10, b"a");
    broadcast(&mut p, 13, b"a");
    assert!(evicts(&mut p, 15).is_empty());
    assert_eq!(evicts(&mut p, 18), [a]);
    // By the time; of one time the oldest first, and one that was cached anew at this time stays where it was.
    let c = broadcast(&mut p, 22, b"c");
    broadcast(&mut p, 20, b"a");
    let b = broadcast(&mut p, 20, b"b");
    broadcast(&mut p, 20, b"a");
    assert_eq!(evicts(&mut p, 30), [a, b, c]);
}

/// Told up by kind 5 a neighbour is announced to and answered, and pushed nothing, until it is told up by kind 3 or down; alike tells it from a lazy one,
/// and a return brings the mark back.
#[test]
fn quiet_neighbours() {
    let lines = |p: &mut Panel, event: &Event| {
        let mut output = [0; 4096];
        p.event(0, event, &[], &mut output).unwrap().map(|a| a.to_string()).collect::<Vec<_>>()
    };
    let pushed = |p: &mut Panel, content: &[u8]| {
        let sent = lines(p, &Event::Broadcast(content));
        sent.iter().filter(|l| l.starts_with("send to 2: Gossip ")).count()
    };
    let received = |message| Event::Received { peer: 2, message };
    let graft = |id| received(Message::Graft { id, round: 0 });
    let prune = received(Message::Prune);
    let dispatch = Event::Timer(Timer::DispatchLazyPush);

    // No action, and no first event: the broadcast schedules the eviction.
    let mut p = Panel::new(Settings::of_panel(1), Limits::SMALL).unwrap();
    assert_eq!(lines(&mut p, &Event::UpQuiet(2)), [""; 0]);
    let sent = lines(&mut p, &Event::Broadcast(b"hot"));
    assert_eq!(sent, ["schedule EvictCache in 1000", "schedule DispatchLazyPush in 5"]);
    let announced = lines(&mut p, &dispatch);
    assert!(announced.len() == 1 && announced[0].starts_with("send to 2: IHave "), "{announced:?}");

    // Its Graft is answered, and it stays lazy, whatever comes.
    let Ok(Message::Gossip { id, .. }) = Message::read(&gossip(b"hot", 0)) else { panic!("a Gossip") };
    let answered = lines(&mut p, &graft(Some(id)));
    assert!(answered.len() == 1 && answered[0].starts_with("send to 2: Gossip "), "{answered:?}");
    assert_eq!(pushed(&mut p, b"a"), 0);
    for event in [graft(None), prune.clone(), graft(Some(id))] {
        lines(&mut p, &event);
        assert_eq!(pushed(&mut p, event.to_string().as_bytes()), 0, "{event}");
    }

    // By kind 3 an ordinary, eager one, and by kind 5 quiet again; a return goes back to what it was.
    let mut area = Area::for_panel(&p);
    p.save(&mut area, *b"quiet   ").unwrap();
    lines(&mut p, &Event::Up(2));
    assert_eq!(pushed(&mut p, b"b"), 1);
    lines(&mut p, &Event::UpQuiet(2));
    lines(&mut p, &graft(None));
    assert_eq!(pushed(&mut p, b"c"), 0);
    lines(&mut p, &Event::Down(2));
    lines(&mut p, &Event::Up(2));
    assert_eq!(pushed(&mut p, b"d"), 1);
    p.go_back(&area, *b"quiet   ").unwrap();
    lines(&mut p, &graft(None));
    assert_eq!(pushed(&mut p, b"e"), 0);

    // Quiet is not lazy, nor eager.
    let marked = |events: &[Event]| {
        let mut p = Panel::new(Settings::of_panel(1), Limits::SMALL).unwrap();
        for event in events {
            lines(&mut p, event);
        }
        p
    };
    let (eager, quiet) = (marked(&[Event::Up(2)]), marked(&[Event::UpQuiet(2)]));
    assert_eq!(eager.alike(&quiet), Ok(false));
    assert_eq!(quiet.alike(&marked(&[Event::Up(2), Event::UpQuiet(2)])), Ok(true));
    let (lazy, quiet) = (marked(&[Event::Up(2), prune.clone()]), marked(&[Event::UpQuiet(2), prune.clone()]));
    assert_eq!(lazy.stats(), quiet.stats());
    assert_eq!(lazy.alike(&quiet), Ok(false));
    assert_eq!(quiet.alike(&lazy), Ok(false));
}

/// As many cached messages as there can be, and one neighbour: all of them forgotten fit into an output of `output_size`, and not into one that is as long as
/// the sends need.
#[test]
fn all_forgotten() {
    let limits = Limits { received: 512, cached: 512, content: 1024, ..Limits::SMALL };
    let limits = Limits { neighbours: 1, grafted: 1, missing: 1, timers: 1, queued: 1, dropped: 1, ..limits };
    assert_eq!(limits.output_size(LEAST_MESSAGE_SIZE), 16_960);
    let settings = Settings { max_message_size: LEAST_MESSAGE_SIZE, ..Settings::of_panel(1) };
    let mut p = Panel::new(settings, limits).unwrap();
    p.event(0, &Event::Up(2), &[], &mut []).unwrap();
    let ids: Vec<Id> = (0..512u16).map(|i| broadcast(&mut p, 0, &i.to_be_bytes())).collect();
    let tick = Event::Timer(Timer::EvictCache);
    refused(&mut p, 30_000, &tick.to_bytes(), 2 * (LEAST_MESSAGE_SIZE as usize + 13) + 64, Error::OutputTooShort);
    let mut output = vec![0; limits.output_size(LEAST_MESSAGE_SIZE)];
    assert_eq!(p.clone().event(30_000, &tick, &[], &mut output).unwrap().count(), 513);
    assert_eq!(evicts(&mut p, 30_000), ids);
}

/// Each setting is where the library reads it: the delays that it writes, the times at which it forgets, whom it takes for itself.
#[test]
fn settings_in_place() {
    let mut settings = Settings::of_panel(7);
    settings.config.graft_timeout_1 = 101;
    settings.config.graft_timeout_2 = 102;
    settings.config.dispatch_timeout = 103;
    settings.config.message_cache_retention = 2000;
    settings.config.message_id_retention = 3000;
    settings.config.cache_evict_interval = 104;
    let mut p = Panel::new(settings, Limits::SMALL).unwrap();
    let mut lines = |at, event: &Event| {
        let mut output = [0; 4096];
        p.event(at, event, &[], &mut output).unwrap().map(|a| a.to_string()).collect::<Vec<_>>()
    };
    lines(0, &Event::Up(2));
    lines(0, &Event::Up(7));
    let evict = Event::Timer(Timer::EvictCache);
    assert_eq!(lines(0, &evict), ["schedule EvictCache in 104", "schedule EvictCache in 104"]);

    let announced = vec![Announced { id: [9; 32], round: 5 }];
    let ihave = Event::Received { peer: 2, message: Message::IHave(announced) };
    assert_eq!(lines(0, &ihave), ["schedule SendGraft 09090909.. in 101"]);
    let timer = Event::Timer(Timer::SendGraft([9; 32]));
    assert_eq!(lines(0, &timer), ["send to 2: Graft 09090909.., round 5", "schedule SendGraft 09090909.. in 102"]);

    // Not to 7, which is the panel itself.
    let sent = lines(0, &Event::Broadcast(b"hot"));
    assert_eq!(sent.len(), 2);
    assert_eq!(sent[0], "schedule DispatchLazyPush in 103");
    assert!(sent[1].starts_with("send to 2: Gossip ") && sent[1].ends_with(" \"hot\", Swarm, round 0"), "{}", sent[1]);

    // A Graft for it is answered until it leaves the cache, at 2,000; it is known until 3,000.
    let bytes = gossip(b"hot", 0);
    let Ok(Message::Gossip { id, .. }) = Message::read(&bytes) else { panic!("a Gossip") };
    let graft = Event::Received { peer: 2, message: Message::Graft { id: Some(id), round: 0 } };
    let again = Event::ReceivedBytes { peer: 2, bytes: &bytes };
    lines(1999, &evict);
    assert_eq!(lines(1999, &graft).len(), 1);
    lines(2000, &evict);
    assert_eq!(lines(2000, &graft), [""; 0]);
    lines(2999, &evict);
    assert_eq!(lines(2999, &again), ["send to 2: Prune"]);
    lines(3000, &evict);
    assert!(lines(3000, &again).contains(&"emit from 2: \"hot\", Swarm, round 0".to_string()));
    let counts = Stats { payload_messages_received: 2, control_messages_received: 3, max_last_delivery_hop: 1 };
    assert_eq!(p.stats(), counts);
}

/// "Threshold 7, r = 9: announcer round 3 optimises, 4 doesn't."
#[test]
fn threshold_in_place() {
    let bytes = gossip(b"hot", 9);
    let Ok(Message::Gossip { id, .. }) = Message::read(&bytes) else { panic!("a Gossip") };
    let optimises = |threshold, round| {
        let mut settings = Settings::of_panel(1);
        settings.config.optimization_threshold = threshold;
        let mut p = Panel::new(settings, Limits::SMALL).unwrap();
        let mut output = [0; 4096];
        let before = [
            Event::Up(2),
            Event::Up(3),
            Event::Received { peer: 3, message: Message::Prune },
            Event::Received { peer: 3, message: Message::IHave(vec![Announced { id, round }]) },
        ];
        for event in before {
            p.event(0, &event, &[], &mut output).unwrap();
        }
        let mut actions = p.event(0, &Event::ReceivedBytes { peer: 2, bytes: &bytes }, &[], &mut output).unwrap();
        actions.any(|a| matches!(a, Action::Send { peer: 3, message: Message::Graft { id: None, .. }, .. }))
    };
    assert!(optimises(7, 3));
    assert!(!optimises(7, 4));
    assert!(optimises(6, 4));
}

#[test]
fn rooms() {
    let reading = Event::Broadcast(b"hot");
    let taken = |rooms: &[LinkRoom]| {
        let mut output = [0; 4096];
        let mut v = Vec::new();
        for a in panel(Limits::SMALL).event(0, &reading, rooms, &mut output).unwrap() {
            if let Action::Send { peer, taken, .. } = a {
                v.push((peer, taken));
            }
        }
        v
    };
    assert_eq!(taken(&[]), [(2, true), (3, true)]);
    assert_eq!(taken(&[LinkRoom { peer: 3, room: 0 }]), [(2, true), (3, false)]);
    // "The first entry for a peer counts".
    assert_eq!(taken(&[LinkRoom { peer: 2, room: 0 }, LinkRoom { peer: 2, room: u16::MAX }]), [(2, false), (3, true)]);
    assert_eq!(taken(&[LinkRoom { peer: 2, room: u16::MAX }, LinkRoom { peer: 2, room: 0 }]), [(2, true), (3, true)]);
}

/// Each limit is told by its number; what is handed back is recorded, so that link room can meet one.
#[test]
fn limits_met() {
    for (i, limit) in Limit::ALL.into_iter().enumerate() {
        assert_eq!(usize::from(limit.number()), i + 1);
        assert_eq!(Limit::from_number(limit.number()), Some(limit));
    }
    assert_eq!([0, 10, 255].map(Limit::from_number), [None; 3]);
    let full = [LinkRoom { peer: 2, room: 0 }, LinkRoom { peer: 3, room: 0 }];
    let reading = Event::Broadcast(b"hot");
    let two = vec![Announced { id: [8; 32], round: 5 }, Announced { id: [9; 32], round: 5 }];
    let ihave = Event::Received { peer: 2, message: Message::IHave(two) };
    let graft = |id| Event::Timer(Timer::SendGraft([id; 32]));
    let prune = |peer| Event::Received { peer, message: Message::Prune };
    let cases: [(Limit, Vec<Event>, Event, &[LinkRoom]); 9] = [
        (Limit::Neighbours, vec![Event::Down(3)], Event::Up(3), &[]),
        (Limit::Received, vec![reading.clone()], Event::Broadcast(b"hotter"), &[]),
        (Limit::Cached, vec![reading.clone()], Event::Broadcast(b"hotter"), &[]),
        (Limit::Content, vec![], reading.clone(), &[]),
        (Limit::Grafted, vec![ihave.clone(), graft(8)], graft(9), &[]),
        (Limit::Missing, vec![], ihave.clone(), &[]),
        (Limit::Timers, vec![], ihave.clone(), &[]),
        (Limit::Queued, vec![prune(2), prune(3)], reading.clone(), &[]),
        (Limit::Dropped, vec![], reading.clone(), &full),
    ];
    for ((limit, before, event, rooms), field) in cases.into_iter().zip(LIMITS) {
        let mut limits = Limits::SMALL;
        *field(&mut limits) = 1;
        let mut p = Panel::new(Settings::of_panel(1), limits).unwrap();
        let mut output = [0; 4096];
        let ups = if limit == Limit::Neighbours { vec![Event::Up(2)] } else { vec![Event::Up(2), Event::Up(3)] };
        for e in ups.iter().chain(&before) {
            assert_eq!(p.limit_met(0, e, &[]), None, "{limit}");
            p.event(0, e, &[], &mut output).unwrap();
        }
        assert_eq!(p.limit_met(0, &event, rooms), Some(limit));
        assert_eq!(p.event(0, &event, rooms, &mut output).unwrap_err(), Error::LimitReached, "{limit}");
    }
}

#[test]
fn alike_and_not() {
    let mut a = panel(Limits::SMALL);
    let mut b = Panel::new(Settings::of_panel(1), Limits::SMALL).unwrap();
    assert_eq!(a.alike(&a), Ok(true));
    assert_eq!(a.alike(&b), Ok(false));
    for event in [Event::Up(3), Event::Up(2), Event::Timer(Timer::EvictCache)] {
        b.event(0, &event, &[], &mut [0; 64]).unwrap();
    }
    assert_eq!(a.alike(&b), Ok(true));
    a.event(0, &Event::Received { peer: 2, message: Message::Prune }, &[], &mut []).unwrap();
    assert_eq!(a.alike(&b), Ok(false));
}

/// A saving, and a return: what changes is what is promised. The answer.
fn saves(p: &Panel, area: &mut Area, name: [u8; 8]) -> Result<(), Error> {
    let before = (p.block().to_vec(), p.stats(), area.clone());
    let answer = p.save(area, name);
    assert!(p.block() == before.0 && p.stats() == before.1, "a saving changes the area alone");
    assert_eq!(area.as_bytes().len(), before.2.as_bytes().len());
    assert!(answer.is_ok() || *area == before.2, "a refusal changes nothing");
    answer
}

fn goes_back(p: &mut Panel, area: &Area, name: [u8; 8]) -> Result<(), Error> {
    let before = (p.block().to_vec(), p.stats(), area.clone());
    let answer = p.go_back(area, name);
    assert!(*area == before.2, "a return does not change the area");
    assert!(answer.is_ok() || (p.block() == before.0 && p.stats() == before.1), "a refusal changes nothing");
    answer
}

fn same(a: &Panel, b: &Panel) -> bool {
    a.block() == b.block() && a.stats() == b.stats()
}

/// Where these bytes stand first.
fn place_of(bytes: &[u8], part: &[u8]) -> usize {
    bytes.windows(part.len()).position(|w| w == part).unwrap()
}

/// Panels of one length in different states: the neighbours 2 and 3, so many control messages from 2 and, from the second on, a reading broadcast.
fn states() -> [Panel; 5] {
    [0, 1, 2, 3, 4].map(|i: u8| {
        let mut p = panel(Limits::SMALL);
        let mut output = [0; 4096];
        for _ in 0..i {
            p.event(0, &Event::Received { peer: 2, message: Message::Prune }, &[], &mut output).unwrap();
        }
        if i > 0 {
            p.event(0, &Event::Broadcast(&[i]), &[], &mut output).unwrap();
        }
        p
    })
}

/// "Returning brings back block and counts in full", under any name, eight zeros too, and by all eight bytes; "saving under a used one replaces it".
#[test]
fn named_states() {
    let kept = states();
    let mut p = kept[4].clone();
    let mut area = Area::for_panel(&p);
    assert_eq!(area.as_bytes().len(), 4 * p.block().len() + 256);
    assert!(area.as_bytes().iter().all(|b| *b == 0));
    // An area of zeros keeps nothing, not even under zeros.
    assert_eq!(goes_back(&mut p, &area, [0; 8]), Err(Error::NameNotKept));

    let names = [[0; 8], *b"plan A  ", *b"plan A \0", *b"Plan A  "];
    for (i, name) in names.into_iter().enumerate() {
        assert_eq!(goes_back(&mut p, &area, name), Err(Error::NameNotKept));
        assert_eq!(saves(&kept[i], &mut area, name), Ok(()));
    }
    for (i, name) in names.into_iter().enumerate().rev() {
        assert_eq!(goes_back(&mut p, &area, name), Ok(()));
        assert!(same(&p, &kept[i]));
    }
    // A fifth name, and one that is not kept.
    assert_eq!(saves(&p, &mut area, *b"plan B  "), Err(Error::NamesFull));
    assert_eq!(goes_back(&mut p, &area, *b"plan B  "), Err(Error::NameNotKept));
    // A used name is replaced where four are kept, and the others stay.
    assert_eq!(saves(&kept[4], &mut area, names[1]), Ok(()));
    for (name, i) in names.into_iter().zip([0, 4, 2, 3]) {
        assert_eq!(goes_back(&mut p, &area, name), Ok(()));
        assert!(same(&p, &kept[i]));
    }
    // The counts come back whatever they are.
    p.stats_mut().payload_messages_received = u64::MAX;
    p.stats_mut().control_messages_received = u64::MAX - 1;
    p.stats_mut().max_last_delivery_hop = u16::MAX;
    let full = p.clone();
    assert_eq!(saves(&p, &mut area, names[0]), Ok(()));
    assert_eq!(goes_back(&mut p, &area, names[2]), Ok(()));
    assert_eq!(goes_back(&mut p, &area, names[0]), Ok(()));
    assert!(same(&p, &full));
    // Its bytes are the area.
    let again = Area::from_bytes(area.clone().into_bytes());
    assert!(again == area && again.as_bytes() == area.as_bytes());
}

/// From a return on the panel does what it would have done from the saving on, whatever was told in between.
#[test]
fn as_if_nothing_had_been_told_since() {
    let full = [LinkRoom { peer: 3, room: 0 }];
    let reading = |n: u8| [b'1', b'/', n];
    let tell = |p: &mut Panel, at, event: &Event| {
        let mut output = [0; 4096];
        p.event(at, event, &full, &mut output).unwrap().bytes().to_vec()
    };
    let since = |p: &mut Panel| {
        let mut actions = Vec::new();
        for at in [40, 50] {
            actions.push(tell(p, at, &Event::Timer(Timer::AnnounceDropped)));
            actions.push(tell(p, at, &Event::Timer(Timer::DispatchLazyPush)));
            actions.push(tell(p, at, &Event::Broadcast(&reading(at as u8))));
        }
        actions
    };
    let mut p = panel(Limits::SMALL);
    tell(&mut p, 10, &Event::Broadcast(&reading(1)));
    let mut area = Area::for_panel(&p);
    p.save(&mut area, *b"plan A  ").unwrap();
    let mut other = p.clone();

    for event in [Event::Up(4), Event::Down(3), Event::Broadcast(&reading(2))] {
        tell(&mut p, 20, &event);
    }
    assert_eq!(p.alike(&other), Ok(false));
    p.go_back(&area, *b"plan A  ").unwrap();
    assert_eq!(since(&mut p), since(&mut other));
    assert!(same(&p, &other));
}

/// A name is the area's: panels of one length share it, and a return brings along the own peer number of the panel that saved.
#[test]
fn shared_areas() {
    let limits = Limits::SMALL;
    let mut memory = vec![0xa5; block_size(limits).unwrap()];
    let mut one = Panel::in_block(&mut memory[..], Settings::of_panel(1), limits).unwrap();
    let mut two = Panel::new(Settings { max_message_size: 510, ..Settings::of_panel(2) }, limits).unwrap();
    let (first, second) = (one.block().to_vec(), two.block().to_vec());
    let mut area = Area::for_panel(&one);
    one.save(&mut area, *b"1 plan A").unwrap();
    two.save(&mut area, *b"2 plan A").unwrap();
    for peer in [2, 3] {
        one.event(0, &Event::Up(peer), &[], &mut []).unwrap();
        two.event(0, &Event::Up(peer), &[], &mut []).unwrap();
    }
    one.go_back(&area, *b"1 plan A").unwrap();
    two.go_back(&area, *b"2 plan A").unwrap();
    assert!(one.block() == first && two.block() == second);
    one.go_back(&area, *b"2 plan A").unwrap();
    assert!(one.block() == second);
}

/// 5, 17, 16 for a saving and 5, 17, 15 for a return: each once, alone and before those that come after it.
#[test]
fn refused_savings_and_returns() {
    let p = panel(Limits::SMALL);
    let n = p.block().len();
    let mut full = Area::for_panel(&p);
    for name in 1..=4 {
        p.save(&mut full, [name; 8]).unwrap();
    }
    let both = |p: &Panel, bytes: &[u8], name: u8| {
        let area = Area::from_bytes(bytes.to_vec());
        (saves(p, &mut area.clone(), [name; 8]), goes_back(&mut p.clone(), &area, [name; 8]))
    };
    let wrong = |error| (Err(error), Err(error));

    // 5: a block that never was a panel's, is cut, is damaged; whatever the area.
    let mut damaged = p.block().to_vec();
    damaged[..64].fill(0xff);
    for block in [vec![0; n], p.block()[..n - 1].to_vec(), damaged, Vec::new()] {
        let lent = Panel::resume(block, p.stats());
        for area in [full.as_bytes(), &full.as_bytes()[1..], &[]] {
            assert_eq!(both(&lent, area, 1), wrong(Error::BlockNotWhole));
            assert_eq!(both(&lent, area, 5), wrong(Error::BlockNotWhole));
        }
    }

    // 17: too short by a byte, or by more. One that is longer will do, as long as zeros stand behind.
    for length in [0, 1, 255, 256, 257, 256 + n, area_size(n).unwrap() - 1] {
        assert_eq!(both(&p, &vec![0; length], 1), wrong(Error::AreaNotWhole), "{length}");
        assert_eq!(both(&p, &full.as_bytes()[..length], 1), wrong(Error::AreaNotWhole), "{length}");
    }
    let mut long = full.as_bytes().to_vec();
    long.resize(long.len() + 100, 0);
    assert_eq!(both(&p, &long, 1), (Ok(()), Ok(())));
    *long.last_mut().unwrap() = 1;
    assert_eq!(both(&p, &long, 1), wrong(Error::AreaNotWhole));

    // Bytes that no saving left: an area that did not start as zeros, a byte more, a name twice, a kept block that is damaged, a fifth state.
    assert_eq!(both(&p, &vec![0xa5; area_size(n).unwrap()], 1), wrong(Error::AreaNotWhole));
    let mut area = Area::for_panel(&p);
    p.save(&mut area, [1; 8]).unwrap();
    for place in [100, 254, 255, 256 + n, 4 * n + 255] {
        let mut bytes = area.as_bytes().to_vec();
        bytes[place] ^= 0x80;
        assert_eq!(both(&p, &bytes, 1), wrong(Error::AreaNotWhole), "{place}");
    }
    let mut bytes = full.as_bytes().to_vec();
    let second = place_of(&bytes, &[2; 8]);
    bytes[second..second + 8].fill(1);
    assert_eq!(both(&p, &bytes, 1), wrong(Error::AreaNotWhole));
    let mut bytes = area.as_bytes().to_vec();
    let kept = place_of(&bytes, p.block());
    bytes[kept..kept + 64].fill(0xff);
    assert_eq!(both(&p, &bytes, 1), wrong(Error::AreaNotWhole));
    let mut bytes = [full.as_bytes(), p.block()].concat();
    let (third, fourth) = (place_of(&bytes, &[3; 8]), place_of(&bytes, &[4; 8]));
    let fifth = fourth + (fourth - third);
    bytes[fifth..fifth + 8].fill(5);
    assert_eq!(bytes[255], 4);
    bytes[255] = 5;
    assert_eq!(both(&p, &bytes, 1), wrong(Error::AreaNotWhole));
    assert_eq!(both(&p, &bytes, 5), wrong(Error::AreaNotWhole));

    // Blocks of another length: the area is too short for them, or theirs do not stand there.
    let longer = panel(Limits { received: Limits::SMALL.received + 1, ..Limits::SMALL });
    assert_eq!(both(&longer, full.as_bytes(), 1), wrong(Error::AreaNotWhole));
    let mut theirs = Area::for_panel(&longer);
    assert_eq!(saves(&longer, &mut theirs, [1; 8]), Ok(()));
    assert_eq!(both(&p, theirs.as_bytes(), 1), wrong(Error::AreaNotWhole));
    // An area without states serves every block that it is long enough for. So does one that savings of such blocks could have left: a block that is
    // longer than its limits need, with zeros at the end, is there as a shorter one with zeros behind.
    assert_eq!(saves(&p, &mut Area::for_panel(&longer), [1; 8]), Ok(()));
    let zeros_behind = Panel::in_block(vec![0; n + 9], Settings::of_panel(1), Limits::SMALL).unwrap();
    let mut theirs = Area::for_panel(&zeros_behind);
    assert_eq!(saves(&zeros_behind, &mut theirs, [1; 8]), Ok(()));
    assert_eq!(both(&p, theirs.as_bytes(), 1), (Ok(()), Ok(())));
    assert_eq!(saves(&zeros_behind, &mut theirs, [2; 8]), Ok(()));
    assert_eq!(both(&p, theirs.as_bytes(), 1), wrong(Error::AreaNotWhole));

    // 16 and 15.
    assert_eq!(both(&p, full.as_bytes(), 5), (Err(Error::NamesFull), Err(Error::NameNotKept)));
    assert_eq!(both(&p, full.as_bytes(), 4), (Ok(()), Ok(())));

    // "length 0", of each answer.
    let (mut block, mut counts) = (p.block().to_vec(), p.stats());
    for (number, name, short) in [(0, 1, 0), (16, 5, 0), (17, 1, 1)] {
        let mut bytes = full.as_bytes()[short..].to_vec();
        let answer = raw::save(p.block(), p.stats(), &mut bytes, u64::from_le_bytes([name; 8]));
        assert_eq!((answer.number, answer.length), (number, 0));
    }
    for (number, name, short) in [(0, 1, 0), (15, 5, 0), (17, 1, 1)] {
        let answer = raw::go_back(&mut block, &mut counts, &full.as_bytes()[short..], u64::from_le_bytes([name; 8]));
        assert_eq!((answer.number, answer.length), (number, 0));
    }
}

/// Question 17 is no checksum: kept counts, and a kept block that stays whole, come back as they stand in the area.
#[test]
fn no_checksum() {
    let mut p = panel(Limits::SMALL);
    p.stats_mut().payload_messages_received = 0x0123_4567_89ab_cdef;
    let mut area = Area::for_panel(&p);
    p.save(&mut area, *b"plan A  ").unwrap();
    let mut bytes = area.into_bytes();
    let (counts, block) = (place_of(&bytes, &0x0123_4567_89ab_cdef_u64.to_le_bytes()), place_of(&bytes, p.block()));
    bytes[counts] = 0;
    // A setting.
    bytes[block] ^= 1;
    let mut expected = p.block().to_vec();
    expected[0] ^= 1;
    p.go_back(&Area::from_bytes(bytes), *b"plan A  ").unwrap();
    assert_eq!(p.stats().payload_messages_received, 0x0123_4567_89ab_cd00);
    assert!(p.block() == expected);
}

#[test]
fn error_numbers() {
    let numbers: Vec<u8> = (1..=17).chain([23]).collect();
    assert_eq!(Error::ALL.map(Error::number), numbers[..]);
    assert!(Error::ALL.is_sorted());
    for n in 0..=u8::MAX {
        assert_eq!(Error::from_number(n).map(Error::number), numbers.contains(&n).then_some(n));
    }
}

/// The header's words for each number (tests/c/gate.sh holds `plumtree_number_text` against the same lines).
#[test]
fn error_texts() {
    for line in include_str!("numbers.txt").lines() {
        let (number, text) = line.split_once(' ').unwrap();
        match (number.parse().unwrap(), Error::from_number(number.parse().unwrap())) {
            (0, None) => assert_eq!(text, "accepted"),
            (_, Some(e)) => assert_eq!(text, e.to_string()),
            (_, None) => assert_eq!(text, "no answer of this library"),
        }
    }
}
