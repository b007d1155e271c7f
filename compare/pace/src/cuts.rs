//! Streams in cuts of several sizes, of small frames and of large ones.
use crate::calls::{self, StreamAnswer, CHANNEL_HEARTBEAT, ORDER};
use crate::inputs::{framed, order_body};
use crate::race::{same, Bench, Row};
use crate::streams::{Says, Stream, Told, BODY_LIMIT, FRAME_LIMIT};
use std::hint::black_box;

/// The receiver's stream, as a host keeps it.
struct Lent<'a> {
    buffer: &'a mut [u8],
    stream: calls::Stream,
}

impl<'a> Lent<'a> {
    fn new(buffer: &'a mut [u8]) -> Self {
        let stream = calls::stream_new();
        Lent { buffer, stream }
    }
}

/// What a host looks at: the type, where there is a frame; how many bytes were taken; whether the stream goes on.
struct Seen {
    kind: Option<u32>,
    took: usize,
    goes_on: bool,
}

/// The calls of a side.
trait Side {
    type Told;
    fn push(&mut self, cut: &[u8]) -> Self::Told;
    fn end(&mut self) -> Self::Told;
    fn seen(told: &Self::Told) -> Seen;
    /// The answer as the header has it, and the bytes that the buffer begins with: a frame, or what is held.
    fn header(&self, told: Self::Told) -> (StreamAnswer, &[u8]);
}

impl Side for Lent<'_> {
    type Told = StreamAnswer;

    fn push(&mut self, cut: &[u8]) -> StreamAnswer {
        let told = calls::stream_push(self.stream, self.buffer, cut);
        self.stream = told.next;
        told
    }

    fn end(&mut self) -> StreamAnswer {
        let told = calls::stream_end(self.stream, self.buffer);
        self.stream = told.next;
        told
    }

    fn seen(told: &StreamAnswer) -> Seen {
        Seen {
            kind: (told.answer == 0).then_some(told.kind),
            took: told.took,
            goes_on: told.answer == 0 || told.answer == calls::MORE,
        }
    }

    fn header(&self, told: StreamAnswer) -> (StreamAnswer, &[u8]) {
        (told, begins(self.buffer, &told))
    }
}

impl Side for Stream<'_> {
    type Told = Told;

    fn push(&mut self, cut: &[u8]) -> Told {
        Stream::push(self, cut)
    }

    fn end(&mut self) -> Told {
        Stream::end(self)
    }

    fn seen(told: &Told) -> Seen {
        let (kind, goes_on) = match told.says {
            Says::InCut(frame) | Says::InBuffer(frame) => (Some(frame.kind), true),
            says => (None, matches!(says, Says::More(_))),
        };
        Seen {
            kind,
            took: told.took,
            goes_on,
        }
    }

    fn header(&self, told: Told) -> (StreamAnswer, &[u8]) {
        let (answer, stands, frame) = match told.says {
            Says::InCut(frame) => (0, calls::IN_CUT, Some(frame)),
            Says::InBuffer(frame) => (0, calls::IN_BUFFER, Some(frame)),
            Says::More(_) => (calls::MORE, 0, None),
            Says::End => (calls::END, 0, None),
            Says::Short(_) => (1, 0, None),
            Says::Refused(why) => (why, 0, None),
            Says::Malformed => (10, 0, None),
        };
        let missing = match told.says {
            Says::More(missing) | Says::Short(missing) => missing,
            _ => 0,
        };
        let told = StreamAnswer {
            answer,
            stands,
            kind: frame.map_or(0, |f| f.kind),
            len: frame.map_or(0, |f| f.len),
            total: frame.map_or(0, |f| f.total),
            missing,
            took: told.took,
            next: calls::Stream {
                held: self.held,
                mark: self.mark,
            },
        };
        (told, begins(self.buffer, &told))
    }
}

/// What the buffer begins with behind a call; of a state that was made by hand, nothing.
fn begins<'a>(buffer: &'a [u8], told: &StreamAnswer) -> &'a [u8] {
    let end = match told.stands {
        calls::IN_BUFFER => told.total,
        _ => told.next.held,
    };
    buffer.get(..end).unwrap_or_default()
}

/// Plays bytes into a stream in cuts of a size: how many frames there are, and the sum of their types.
fn play<S: Side>(side: &mut S, bytes: &[u8], size: usize) -> (usize, u64) {
    let (mut frames, mut kinds) = (0, 0);
    for mut cut in bytes.chunks(size) {
        while !cut.is_empty() {
            let told = side.push(cut);
            black_box(&told);
            let seen = S::seen(&told);
            if let Some(kind) = seen.kind {
                frames += 1;
                kinds += u64::from(kind);
            }
            if !seen.goes_on {
                return (frames, kinds);
            }
            cut = &cut[seen.took..];
        }
    }
    black_box(&side.end());
    (frames, kinds)
}

/// Both sides answered the same, and their buffers begin with the same; the answer.
fn both<A: Side, B: Side>(ours: &A, a: A::Told, rust: &B, b: B::Told) -> StreamAnswer {
    let ((a, in_ours), (b, in_rust)) = (ours.header(a), rust.header(b));
    same(a, b);
    assert_eq!(in_ours, in_rust);
    a
}

/// Both sides answer the same, at each cut of a size, at one of no bytes, at the end, and behind it; the last answer.
fn agree(ours: &mut impl Side, rust: &mut impl Side, bytes: &[u8], size: usize) -> u32 {
    for mut cut in bytes.chunks(size).chain([&[][..]]) {
        loop {
            let (a, b) = (ours.push(cut), rust.push(cut));
            let told = both(ours, a, rust, b);
            if told.answer != 0 {
                break;
            }
            cut = &cut[told.took..];
        }
    }
    for _ in 0..2 {
        let (a, b) = (ours.end(), rust.end());
        both(ours, a, rust, b);
    }
    let (a, b) = (ours.push(bytes), rust.push(bytes));
    both(ours, a, rust, b).answer
}

/// Both sides refuse the same: streams that are cut, damaged or too long, and states that no calls lead to.
fn agree_on_refusals(frames: &[u8]) {
    let (mut a, mut b) = (vec![0; FRAME_LIMIT], vec![0; FRAME_LIMIT]);
    let damaged = [&frames[..70], &[0; 12], &[1; 12]].concat();
    let long = [&frames[..63], &[0, 0, 0, 3, 0, 0, 64, 1, 9]].concat();
    let cases = [
        (&frames[..62], 1),
        (&frames[..70], 1),
        (&long, 2),
        (&damaged, 3),
        (&frames[..63], calls::END),
        (&[], calls::END),
    ];
    for (bytes, answer) in cases {
        for size in [1, 3, 8, 63, 100] {
            let (mut ours, mut rust) = (Lent::new(&mut a), Stream::new(&mut b));
            assert_eq!(agree(&mut ours, &mut rust, bytes, size), answer);
        }
    }
    for buffer in [FRAME_LIMIT - 1, FRAME_LIMIT, FRAME_LIMIT + 1] {
        for held in [0, 1, 7, 8, 62, 63, FRAME_LIMIT, FRAME_LIMIT + 2] {
            for mark in 0..6 {
                let mut a: Vec<u8> = frames.iter().copied().cycle().take(buffer).collect();
                let mut b = a.clone();
                let stream = calls::Stream { held, mark };
                let (mut ours, mut rust) = (Lent::new(&mut a), Stream::new(&mut b));
                ours.stream = stream;
                (rust.held, rust.mark) = (held, mark);
                agree(&mut ours, &mut rust, &frames[..200], 50);
            }
        }
    }
}

/// A megabyte of frames, of these in turn.
fn megabyte(frames: &[Vec<u8>]) -> Vec<u8> {
    let mut bytes = Vec::new();
    for frame in frames.iter().cycle() {
        if bytes.len() >= 1_000_000 {
            break;
        }
        bytes.extend(frame);
    }
    bytes
}

fn row(bench: &Bench, what: &str, bytes: &[u8], size: usize) {
    let (mut a, mut b) = (vec![0; FRAME_LIMIT], vec![0; FRAME_LIMIT]);
    let (mut ours, mut rust) = (Lent::new(&mut a), Stream::new(&mut b));
    assert_eq!(agree(&mut ours, &mut rust, bytes, size), calls::END);
    let seen = play(&mut Lent::new(&mut a), bytes, size);
    assert_eq!(seen, play(&mut Stream::new(&mut b), bytes, size));
    bench.race(
        Row {
            what,
            turns: 20,
            parts: seen.0,
        },
        || play(&mut Lent::new(&mut a), black_box(bytes), size),
        || play(&mut Stream::new(&mut b), black_box(bytes), size),
    );
}

pub fn run(bench: &Bench) {
    let heartbeat = [&2011u16.to_be_bytes()[..], &10i64.to_be_bytes(), &[0; 2]].concat();
    let large: Vec<u8> = (0..BODY_LIMIT).map(|i| (i * 31 + 7) as u8).collect();
    let small = megabyte(&[
        framed(ORDER, &order_body()),
        framed(CHANNEL_HEARTBEAT, &heartbeat),
    ]);
    let large = megabyte(&[framed(ORDER, &large)]);
    agree_on_refusals(&small);
    for (size, bytes) in [("small", &small), ("large", &large)] {
        for (cut, told) in [(65_536, "65,536"), (1_460, "1,460"), (64, "64")] {
            row(
                bench,
                &format!("stream, {size} frames, cuts of {told}"),
                bytes,
                cut,
            );
        }
    }
}
