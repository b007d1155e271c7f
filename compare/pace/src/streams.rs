//! Rust's side: a stream that comes in cuts, changed in place.
use crate::ranges::{checksum, word};

pub const BODY_LIMIT: usize = 16_384;
pub const FRAME_LIMIT: usize = BODY_LIMIT + 12;

/// The marks of a stream that goes on, and of one that has ended; those of one that stopped are the refusals.
const GOING: u32 = 0;
const ENDED: u32 = 1;

const TOO_LONG: u32 = 2;
const WRONG_SUM: u32 = 3;

#[derive(Clone, Copy, Debug)]
pub struct Frame {
    pub kind: u32,
    pub len: usize,
    pub total: usize,
}

/// What a call finds.
#[derive(Clone, Copy, Debug)]
pub enum Says {
    InCut(Frame),
    InBuffer(Frame),
    /// How many bytes are missing.
    More(usize),
    End,
    /// Refused by 1: how many bytes are missing.
    Short(usize),
    Refused(u32),
    Malformed,
}

/// What a call finds, and how many bytes of the cut it took.
#[derive(Clone, Copy, Debug)]
pub struct Told {
    pub says: Says,
    pub took: usize,
}

/// The lent buffer, how many bytes of an unfinished frame it begins with, and how the stream stands.
pub struct Stream<'a> {
    pub buffer: &'a mut [u8],
    pub held: usize,
    pub mark: u32,
}

/// How many bytes a frame's start lacks before it can be judged further: 0 where nothing.
fn lacks(bytes: &[u8]) -> usize {
    if bytes.len() < 8 {
        return 8 - bytes.len();
    }
    let len = word(bytes, 4) as usize;
    if len > BODY_LIMIT {
        return 0;
    }
    (len + 12).saturating_sub(bytes.len())
}

/// What bytes begin with.
enum Begins {
    Whole(Frame),
    Short(usize),
    TooLong,
    WrongSum(usize),
}

fn read(bytes: &[u8]) -> Begins {
    if bytes.len() < 8 {
        return Begins::Short(8 - bytes.len());
    }
    let len = word(bytes, 4) as usize;
    if len > BODY_LIMIT {
        return Begins::TooLong;
    }
    let (end, total) = (len + 8, len + 12);
    if bytes.len() < total {
        return Begins::Short(total - bytes.len());
    }
    if word(bytes, end) != checksum(&bytes[..end]) {
        return Begins::WrongSum(total);
    }
    Begins::Whole(Frame {
        kind: word(bytes, 0),
        len,
        total,
    })
}

impl<'a> Stream<'a> {
    pub fn new(buffer: &'a mut [u8]) -> Self {
        Stream {
            buffer,
            held: 0,
            mark: GOING,
        }
    }

    /// How many bytes the held ones lack; none for a state that no calls lead to.
    fn wants(&self) -> Option<usize> {
        if self.buffer.len() < FRAME_LIMIT {
            return None;
        }
        let wants = lacks(self.buffer.get(..self.held)?);
        let led = match self.mark {
            GOING | ENDED => wants > 0,
            TOO_LONG | WRONG_SUM => self.held == 0,
            _ => false,
        };
        led.then_some(wants)
    }

    /// What a stream that is over, and whose held bytes want so many, answers at every call.
    fn over(&self, wants: usize) -> Told {
        let says = match (self.mark, self.held) {
            (ENDED, 0) => Says::End,
            (ENDED, _) => Says::Short(wants),
            (mark, _) => Says::Refused(mark),
        };
        Told { says, took: 0 }
    }

    /// Takes bytes into the buffer, behind those held.
    fn keep(&mut self, bytes: &[u8]) {
        let end = self.held + bytes.len();
        self.buffer[self.held..end].copy_from_slice(bytes);
        self.held = end;
    }

    fn refuse(&mut self, mark: u32, took: usize) -> Told {
        self.held = 0;
        self.mark = mark;
        Told {
            says: Says::Refused(mark),
            took,
        }
    }

    fn more(&mut self, rest: &[u8], took: usize, missing: usize) -> Told {
        self.keep(rest);
        Told {
            says: Says::More(missing),
            took,
        }
    }

    /// A cut where nothing is held: a frame that lies whole in it stays there.
    fn begin(&mut self, cut: &[u8]) -> Told {
        match read(cut) {
            Begins::Whole(frame) => Told {
                says: Says::InCut(frame),
                took: frame.total,
            },
            Begins::Short(missing) => self.more(cut, cut.len(), missing),
            Begins::TooLong => self.refuse(TOO_LONG, 8),
            Begins::WrongSum(total) => self.refuse(WRONG_SUM, total),
        }
    }

    /// A cut behind held bytes, which want so many.
    fn go_on(&mut self, mut wants: usize, cut: &[u8]) -> Told {
        let mut rest = cut;
        while wants > 0 {
            if rest.len() < wants {
                return self.more(rest, cut.len(), wants - rest.len());
            }
            let (taken, left) = rest.split_at(wants);
            self.keep(taken);
            rest = left;
            wants = lacks(&self.buffer[..self.held]);
        }
        let took = cut.len() - rest.len();
        match read(&self.buffer[..self.held]) {
            Begins::Whole(frame) => {
                self.held = 0;
                Told {
                    says: Says::InBuffer(frame),
                    took,
                }
            }
            Begins::WrongSum(_) => self.refuse(WRONG_SUM, took),
            _ => self.refuse(TOO_LONG, took),
        }
    }

    #[inline(never)]
    pub fn push(&mut self, cut: &[u8]) -> Told {
        match self.wants() {
            None => Told {
                says: Says::Malformed,
                took: 0,
            },
            Some(wants) if self.mark != GOING => self.over(wants),
            Some(_) if self.held == 0 => self.begin(cut),
            Some(wants) => self.go_on(wants, cut),
        }
    }

    #[inline(never)]
    pub fn end(&mut self) -> Told {
        let Some(wants) = self.wants() else {
            return Told {
                says: Says::Malformed,
                took: 0,
            };
        };
        if self.mark == GOING {
            self.mark = ENDED;
        }
        self.over(wants)
    }
}
