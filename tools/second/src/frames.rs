//! The stack as a list of frames.
//!
//! At the bottom lies the ground: the values while fp is 0. Each `CreateFrame` takes the three topmost values of the
//! frame below into a new frame, and adds its own frame link, locals and values. A frame link is therefore never a
//! value, and no instruction can move one.

use crate::heap::Field;

/// A stack word: "type × 2^28 + payload".
#[derive(Clone, Copy, Debug, PartialEq, Eq)]
pub enum Word {
    Null,
    Place(usize),
    None,
    ReturnAddress(usize),
    Rules { ruleset: usize, rp: usize },
    StaticLink(usize),
    FrameLink { previous: usize, locals: usize },
}

impl Word {
    pub fn from_field(field: Field) -> Word {
        match field {
            Field::Place(place) => Word::Place(place),
            Field::None => Word::None,
        }
    }

    /// "a reference or None"
    pub fn as_field(self) -> Option<Field> {
        match self {
            Word::Place(place) => Some(Field::Place(place)),
            Word::None => Some(Field::None),
            _ => None,
        }
    }

    /// "0 null (the whole word 0), 1 reference to a heap place, 2 None, 3 return address, 4 ruleset × 256 + rp,
    /// 5 static link, 6 frame link: previous fp × 256 + locals n"
    fn encode(self) -> u32 {
        let (kind, payload) = match self {
            Word::Null => (0, 0),
            Word::Place(place) => (1, place),
            Word::None => (2, 0),
            Word::ReturnAddress(address) => (3, address),
            Word::Rules { ruleset, rp } => (4, ruleset * 256 + rp),
            Word::StaticLink(slp) => (5, slp),
            Word::FrameLink { previous, locals } => (6, previous * 256 + locals),
        };
        (kind << 28) + payload as u32
    }
}

/// A frame. The ground has no saved words, no frame link and no locals.
#[derive(Clone, Debug)]
pub struct Frame {
    /// The return address, ruleset word and static link, or whatever lay there.
    saved: Option<[Word; 3]>,
    fp: usize,
    locals: Vec<Word>,
    values: Vec<Word>,
}

impl Frame {
    fn ground(values: Vec<Word>) -> Frame {
        Frame {
            saved: None,
            fp: 0,
            locals: Vec::new(),
            values,
        }
    }

    /// The place of its lowest word.
    fn start(&self) -> usize {
        if self.saved.is_some() {
            self.fp - 4
        } else {
            0
        }
    }

    /// "Values are the words from lp to sp", and "lp is fp + n".
    fn end(&self) -> usize {
        self.fp + self.locals.len() + self.values.len()
    }

    /// All its words, lowest first; `previous` is the fp of the frame below.
    fn words(&self, previous: usize) -> Vec<Word> {
        let mut words = Vec::new();
        if let Some(saved) = self.saved {
            words.extend(saved);
            words.push(Word::FrameLink {
                previous,
                locals: self.locals.len(),
            });
        }
        words.extend(&self.locals);
        words.extend(&self.values);
        words
    }
}

/// The frames, the ground first.
#[derive(Clone, Debug)]
pub struct Frames(Vec<Frame>);

impl Frames {
    pub fn empty() -> Frames {
        Frames(vec![Frame::ground(Vec::new())])
    }

    fn top(&self) -> &Frame {
        self.0.last().expect("the ground is never removed")
    }

    fn top_mut(&mut self) -> &mut Frame {
        self.0.last_mut().expect("the ground is never removed")
    }

    /// sp
    pub fn depth(&self) -> usize {
        self.top().end()
    }

    pub fn fp(&self) -> usize {
        self.top().fp
    }

    /// The locals of the top frame; none "if fp is 0".
    pub fn locals(&self) -> &[Word] {
        &self.top().locals
    }

    /// The values, the topmost last.
    pub fn values(&self) -> &[Word] {
        &self.top().values
    }

    /// The three words that `Return` restores besides the frame link; `None` if fp is 0.
    pub fn saved(&self) -> Option<[Word; 3]> {
        self.top().saved
    }

    /// The word at a place below sp, whatever it is.
    pub fn word_at(&self, place: usize) -> Word {
        let mut index = self.0.len() - 1;
        while self.0[index].start() > place {
            index -= 1;
        }
        let frame = &self.0[index];
        if place >= frame.fp + frame.locals.len() {
            return frame.values[place - frame.fp - frame.locals.len()];
        }
        if place >= frame.fp {
            return frame.locals[place - frame.fp];
        }
        let previous = self.0[index - 1].fp;
        frame.words(previous)[place - frame.start()]
    }

    pub fn push(&mut self, word: Word) {
        self.top_mut().values.push(word);
    }

    pub fn drop_values(&mut self, count: usize) {
        let values = &mut self.top_mut().values;
        values.truncate(values.len() - count);
    }

    pub fn set_local(&mut self, local: usize, word: Word) {
        self.top_mut().locals[local] = word;
    }

    /// "pushes the frame link, sets fp to the new sp, pushes a nulls"
    pub fn open(&mut self, locals: usize) {
        let fp = self.depth() + 1;
        let values = &mut self.top_mut().values;
        let saved = [values.len() - 3, values.len() - 2, values.len() - 1].map(|index| values[index]);
        self.drop_values(3);
        self.0.push(Frame {
            saved: Some(saved),
            fp,
            locals: vec![Word::Null; locals],
            values: Vec::new(),
        });
    }

    /// "the top word goes to fp-4, sp becomes fp-3"
    pub fn close(&mut self, result: Word) {
        self.0.pop();
        self.push(result);
    }

    /// "the stack becomes the exception, three nulls and a frame link with fp 0 and n 0; fp = 5"
    pub fn restart(&mut self, exception: Word) {
        self.0 = vec![Frame::ground(vec![exception, Word::Null, Word::Null, Word::Null])];
        self.open(0);
    }

    /// The whole area: the words, then zeros.
    pub fn encode(&self, area: &mut [u32]) {
        area.fill(0);
        let mut previous = 0;
        for frame in &self.0 {
            let words = frame.words(previous);
            let places = &mut area[frame.start()..];
            for (place, word) in places.iter_mut().zip(words) {
                *place = word.encode();
            }
            previous = frame.fp;
        }
    }
}
