//! Streams of many statements that arrive shuffled, some messages twice and some late. A tally that is kept here, from what has
//! arrived alone, says what the block is to be at every moment.

use anaqsiro::{Block, Half, Kind, Ledger, Letters, Marker, Refusal, Rights, Sent, Taken, Why, WideHalf, WideMessage};
use second::gen::Rng;
use second::{Index, MARKERS};
use std::collections::{BTreeMap, BTreeSet};

/// What is sent, with its statement and its number there.
#[derive(Clone, Copy)]
struct Labelled {
    label: usize,
    number: u64,
    message: Sent,
}

/// What a statement says, and nothing in between.
type Says = Option<(Kind, WideHalf)>;

/// How large a stream is: its statements, its messages, and the names that they are about.
#[derive(Clone, Copy)]
struct Size {
    statements: u64,
    messages: usize,
    names: u64,
}

/// A half of a kind, of memberships often with a marker. Names are few, so that statements share records. Half of them are of one
/// pair, and the others of a few.
fn any_half(rng: &mut Rng, kind: Kind, names: u64) -> WideHalf {
    let most = if kind == Kind::Permission { u8::MAX } else { Rights::ALL.mask() };
    let mask = Letters::from_mask(1 + rng.below(most.into())).expect("a mask");
    let marker = [None, Some(Marker::X), Some(Marker::N)][rng.below(3) as usize].filter(|_| kind == Kind::Membership);
    let one = Half::new(rng.below(names), rng.below(names), mask);
    let more = rng.below(2) * 2;
    let [keys, ids] = [one.key, one.id].map(|name| (0..more).map(|_| rng.below(names)).chain([name]).collect::<Vec<_>>());
    let half = WideHalf::new(keys, ids, mask).expect("some names, and few");
    marker.map_or(half, |marker| half.marked(marker))
}

/// What is sent: a wide message also where a plain one would do, now and then.
fn any_form(rng: &mut Rng, kind: Kind, previous: Option<WideHalf>, new: Option<WideHalf>) -> Sent {
    if rng.one_in(4) {
        return WideMessage::new(kind, previous, new).into();
    }
    Sent::new(kind, previous, new)
}

/// A stream in the order in which it was said: each message quotes what the one before of its statement said.
fn stream(rng: &mut Rng, size: Size) -> Vec<Labelled> {
    let mut left = vec![(0, None); size.statements as usize];
    (0..size.messages)
        .map(|_| {
            let label = rng.below(size.statements) as usize;
            let kind = Kind::ALL[label % 3];
            let (number, previous) = left[label];
            let ends = previous.is_some() && rng.one_in(3);
            let new = (!ends).then(|| any_half(rng, kind, size.names));
            left[label] = (number + 1, new);
            Labelled { label, number: number + 1, message: any_form(rng, kind, previous, new) }
        })
        .collect()
}

fn shuffled(rng: &mut Rng, mut sent: Vec<Labelled>) -> Vec<Labelled> {
    for n in (1..sent.len()).rev() {
        sent.swap(n, rng.below(n as u64 + 1) as usize);
    }
    sent
}

/// The stream with messages that overtake each other, though not by far, and some that come twice.
fn jumbled(rng: &mut Rng, stream: &[Labelled]) -> Vec<Labelled> {
    let mut placed = Vec::new();
    for (n, &sent) in (0..).zip(stream) {
        for _ in 0..rng.pick(&[1, 1, 1, 2]) {
            placed.push((n + rng.below(20), sent));
        }
    }
    placed.sort_by_key(|&(place, _)| place);
    placed.into_iter().map(|(_, sent)| sent).collect()
}

/// What arrives: first the most of the stream, some of it twice; then what was lost, and more of it again.
fn arrivals(rng: &mut Rng, stream: &[Labelled]) -> [Vec<Labelled>; 2] {
    let (lost, kept): (Vec<Labelled>, Vec<Labelled>) = stream.iter().partition(|_| rng.one_in(8));
    let mut again = |of: &[Labelled]| of.iter().copied().filter(|_| rng.one_in(4)).collect::<Vec<_>>();
    let (first, second) = ([kept.clone(), again(&kept)].concat(), [lost, again(stream)].concat());
    [first, second].map(|wave| shuffled(rng, wave))
}

/// What has arrived, and what follows from it.
#[derive(Default)]
struct Arrived(BTreeMap<usize, BTreeMap<u64, Sent>>);

impl Arrived {
    /// How many messages of a statement have come without a gap.
    fn whole(&self, label: usize) -> u64 {
        let numbers = self.0.get(&label).into_iter().flat_map(|messages| messages.keys());
        (1..).zip(numbers).take_while(|(wanted, number)| wanted == *number).count() as u64
    }

    /// What a statement says by the message of a number.
    fn says(&self, label: usize, number: u64) -> Says {
        let message = self.0.get(&label)?.get(&number)?;
        Some((message.kind()?, message.halves()[1]?))
    }

    /// What each statement says by its messages without a gap.
    fn standing(&self) -> impl Iterator<Item = Says> + '_ {
        self.0.keys().map(|&label| self.says(label, self.whole(label)))
    }
}

/// The block of a length that counts these statements, by the second program.
fn counted(length: usize, standing: impl Iterator<Item = Says>) -> Vec<u8> {
    let mut index = Index::empty(length);
    let pairs = standing.flatten().flat_map(|(kind, half)| half.pairs().map(move |pair| (kind, pair)).collect::<Vec<_>>());
    for (kind, half) in pairs {
        let part = &mut index.parts[usize::from(kind.number()) - 1];
        let counts = part.entry((half.key as u16, half.id as u16)).or_default();
        let mask = u64::from(half.mask.mask()) | half.marker.map_or(0, |marker| 1 << (MARKERS.start + marker as usize));
        (0..counts.len()).filter(|k| mask >> k & 1 == 1).for_each(|k| counts[k] += 1);
    }
    index.encode()
}

/// What a run of arrivals met.
#[derive(Debug, Default)]
struct Met {
    applied: usize,
    released: usize,
    early: usize,
    repeated: usize,
    refused: usize,
    /// How many of the messages were wide.
    wide: usize,
}

impl Met {
    fn saw(&mut self, taken: Taken) {
        match taken {
            Taken::Applied { released } => {
                self.applied += 1;
                self.released += released;
            }
            Taken::HeldBack(Why::Refused(_)) => self.refused += 1,
            Taken::HeldBack(_) => self.early += 1,
            Taken::Repeated => self.repeated += 1,
        }
    }
}

/// Hands a message in; the answer and all that the ledger then shows must follow from what has arrived.
fn arrives(ledger: &mut Ledger<usize>, arrived: &mut Arrived, sent: Labelled) -> Taken {
    let Labelled { label, number, message } = sent;
    let before = arrived.whole(label);
    arrived.0.entry(label).or_default().insert(number, message);
    let after = arrived.whole(label);
    let wanted = match number {
        number if number <= before => Taken::Repeated,
        number if number == before + 1 => Taken::Applied { released: (after - number) as usize },
        _ => Taken::HeldBack(Why::Early),
    };
    assert_eq!(ledger.take(label, number, message), Ok(wanted));
    assert_eq!(ledger.left(&label), arrived.says(label, after).map(|(_, half)| half));
    assert_eq!(ledger.block().bytes(), counted(ledger.block().bytes().len(), arrived.standing()));
    wanted
}

/// The statements with a gap, and the numbers after it that have come.
fn gaps(arrived: &Arrived) -> Vec<(usize, u64, Vec<u64>)> {
    let gap = |(&label, messages): (&usize, &BTreeMap<u64, Sent>)| {
        let next = arrived.whole(label) + 1;
        let held: Vec<u64> = messages.range(next..).map(|(&number, _)| number).collect();
        (!held.is_empty()).then_some((label, next, held))
    };
    arrived.0.iter().filter_map(gap).collect()
}

/// What the ledger says is waiting, in the same form.
fn waiting(ledger: &Ledger<usize>) -> Vec<(usize, u64, Vec<u64>)> {
    let line = |waits: anaqsiro::Waiting<usize>| (*waits.label, waits.next, waits.held.iter().map(|held| held.0).collect());
    ledger.waiting().map(line).collect()
}

/// The stream in order, on a block with room for so many records.
fn in_order(stream: &[Labelled], room: usize) -> Block {
    let mut block = Block::with_room(room).expect("room");
    stream.iter().for_each(|sent| sent.message.apply_to(&mut block).expect("accepted"));
    block
}

/// A stream arrives in two waves on a block with room for all of it. At every moment the block is the one that counts the
/// statements standing; in the end it is the one of the stream in order.
fn arrives_in_two_waves(seed: u64, size: Size, met: &mut Met) -> usize {
    let mut rng = Rng(seed);
    let stream = stream(&mut rng, size);
    let room = (3 * size.names * size.names) as usize;
    let mut ledger = Ledger::with_room(room).expect("room");
    let mut arrived = Arrived::default();
    let [first, second] = arrivals(&mut rng, &stream);
    met.wide += stream.iter().filter(|sent| matches!(sent.message, Sent::Wide(_))).count();
    first.into_iter().for_each(|sent| met.saw(arrives(&mut ledger, &mut arrived, sent)));
    let gaps = gaps(&arrived);
    assert_eq!(waiting(&ledger), gaps);
    second.into_iter().for_each(|sent| met.saw(arrives(&mut ledger, &mut arrived, sent)));
    assert_eq!(waiting(&ledger), []);
    assert_eq!(ledger.block(), &in_order(&stream, room));
    gaps.len()
}

#[test]
fn shuffled_streams_leave_the_block_of_the_stream_in_order() {
    let (mut met, mut gaps) = (Met::default(), 0);
    for seed in 0..60 {
        gaps += arrives_in_two_waves(seed, Size { statements: 1 + seed / 2, messages: 120, names: 1 + seed % 6 }, &mut met);
    }
    gaps += arrives_in_two_waves(60, Size { statements: 200, messages: 1_500, names: 8 }, &mut met);
    assert!(met.applied > 1_000 && met.released > 1_000 && met.early > 1_000 && met.repeated > 500, "{met:?}");
    assert!(met.refused == 0 && met.wide > 1_000 && gaps > 100, "{gaps} gaps after the first wave, {met:?}");
}

/// What the statements of a ledger say by its own account.
fn by_account(ledger: &Ledger<usize>) -> impl Iterator<Item = Says> + '_ {
    ledger.statements().map(|(_, said)| Some((said.kind, said.left?)))
}

/// Streams on a block that has room for them in order, and no more. Messages without room are held back, and applied once another
/// has made room. Where all have arrived and some still wait, each for a place that another of them holds, the block is to grow.
#[test]
fn streams_on_a_full_block_lose_nothing() {
    let (mut met, mut stuck, mut through) = (Met::default(), 0, 0);
    for seed in 0..3_000 {
        let mut rng = Rng(seed);
        let stream = stream(&mut rng, Size { statements: 2 + seed % 8, messages: 16, names: 4 });
        let room = (1..).find(|&room| fits(&stream, room)).expect("a room");
        let mut ledger = Ledger::with_room(room).expect("room");
        let before = met.refused;
        for sent in jumbled(&mut rng, &stream) {
            met.saw(ledger.take(sent.label, sent.number, sent.message).expect("none is wrong"));
            assert_eq!(ledger.block().bytes(), counted(ledger.block().bytes().len(), by_account(&ledger)));
        }
        assert!(ledger.waiting().all(|waits| waits.why == Why::Refused(Refusal::NoRoom)), "all have arrived");
        if ledger.waiting().next().is_some() {
            stuck += 1;
            assert!(ledger.grow(48).expect("room") > 0);
        } else {
            through += usize::from(met.refused > before);
        }
        assert_eq!(waiting(&ledger), []);
        assert_eq!(ledger.block(), &in_order(&stream, ledger.block().room()));
    }
    assert!(met.refused > 200 && met.released > 1_000 && met.early > 1_000 && met.repeated > 1_000, "{met:?}");
    assert!(stuck > 10 && through > 10, "{stuck} streams were stuck, {through} went through after a refusal");
}

/// Whether the stream in order has room enough.
fn fits(stream: &[Labelled], room: usize) -> bool {
    let mut block = Block::with_room(room).expect("room");
    stream.iter().all(|sent| sent.message.apply_to(&mut block).is_ok())
}

/// Messages are lost for good. Each statement goes on with its next one, and then says what its last message that came says.
#[test]
fn statements_go_on_without_what_was_lost() {
    let (mut skipped, mut passed_over) = (0, 0);
    for seed in 0..100 {
        let mut rng = Rng(seed);
        let stream = stream(&mut rng, Size { statements: 12, messages: 150, names: 5 });
        let mut ledger = Ledger::with_room(75).expect("room");
        let mut last: BTreeMap<usize, (u64, Says)> = BTreeMap::new();
        let [first, _] = arrivals(&mut rng, &stream);
        let came: BTreeSet<_> = first.iter().map(|sent| (sent.label, sent.number)).collect();
        for sent in first {
            ledger.take(sent.label, sent.number, sent.message).expect("none is wrong");
            let says = sent.message.kind().zip(sent.message.halves()[1]);
            let known = last.entry(sent.label).or_insert((0, None));
            if sent.number > known.0 {
                *known = (sent.number, says);
            }
        }
        let behind: Vec<usize> = ledger.waiting().map(|waits| *waits.label).collect();
        for label in behind {
            while ledger.waiting().any(|waits| *waits.label == label) {
                assert!(ledger.skip(&label).expect("room and one kind") > 0);
                assert_eq!(ledger.block().bytes(), counted(ledger.block().bytes().len(), by_account(&ledger)));
                skipped += 1;
            }
        }
        assert_eq!(waiting(&ledger), []);
        assert_eq!(ledger.block().bytes(), counted(ledger.block().bytes().len(), last.values().map(|known| known.1)));
        for sent in stream.iter().filter(|sent| sent.number <= last.get(&sent.label).map_or(0, |known| known.0)) {
            assert_eq!(ledger.take(sent.label, sent.number, sent.message), Ok(Taken::Repeated));
            passed_over += usize::from(!came.contains(&(sent.label, sent.number)));
        }
    }
    assert!(skipped > 300 && passed_over > 300, "{skipped} times, over {passed_over} messages");
}

/// A ledger that is made again from its statements, and takes again what was held back, goes on as the first one does.
#[test]
fn a_ledger_is_restored() {
    let mut held = 0;
    for seed in 0..40 {
        let mut rng = Rng(seed);
        let stream = stream(&mut rng, Size { statements: 12, messages: 150, names: 5 });
        let mut ledger = Ledger::with_room(75).expect("room");
        let [first, second] = arrivals(&mut rng, &stream);
        for sent in first {
            ledger.take(sent.label, sent.number, sent.message).expect("none is wrong");
        }
        let mut again = Ledger::restore(75, ledger.statements().map(|(&label, said)| (label, said))).expect("room");
        for waits in ledger.waiting() {
            for (number, message) in waits.held {
                assert_eq!(again.take(*waits.label, number, message), Ok(Taken::HeldBack(Why::Early)));
                held += 1;
            }
        }
        assert!(again.waiting().eq(ledger.waiting()) && again.statements().eq(ledger.statements()));
        for sent in second {
            let [one, other] = [&mut ledger, &mut again].map(|ledger| ledger.take(sent.label, sent.number, sent.message));
            assert_eq!((one, ledger.block()), (other, again.block()));
        }
        assert_eq!(again.block(), &in_order(&stream, 75));
    }
    assert!(held > 100, "{held} were held back");
}
