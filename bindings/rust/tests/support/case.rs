//! Cases and lists of openings, as docs/FORMATS.md has them.

use std::num::NonZeroU16;
use tarredlath::{raw, Construct, Context, Job, Opening, Verdict};

/// `CONSTRUCT KIND MODE INTERRUPT START HEXPAGE VERDICTS [room=EVENTS] [allowance=STEPS]`
pub struct Case {
    pub job: Job,
    pub page: Vec<u8>,
    /// As numbers, since some of them are none that a verdict may have.
    pub verdicts: Vec<raw::Verdict>,
    pub room: Option<usize>,
    pub allowance: Option<usize>,
}

impl Case {
    pub fn parse(line: &str) -> Option<Case> {
        let mut fields = line.split(' ');
        let construct = construct(fields.next()?)?;
        let context = context(fields.next()?)?;
        let asks = one_of(fields.next()?, "c", "v")?;
        let interrupts = one_of(fields.next()?, "0", "1")?;
        let start = decimal(fields.next()?)?;
        let page = from_hex(fields.next()?)?;
        let verdicts = match fields.next()? {
            "-" => Vec::new(),
            list => list.split(',').map(verdict).collect::<Option<_>>()?,
        };
        let mut last = fields.next();
        let mut option = |name: &str| {
            let value = decimal(last?.strip_prefix(name)?)?;
            last = fields.next();
            Some(value)
        };
        let (room, allowance) = (option("room="), option("allowance="));
        last.is_none().then_some(Case {
            job: Job {
                construct,
                context,
                start,
                asks,
                interrupts,
            },
            page,
            verdicts,
            room,
            allowance,
        })
    }

    /// The words of an event buffer for the case. Room for more events than any scan of the page
    /// writes makes no difference.
    pub fn words(&self) -> usize {
        let most = tarredlath::words_enough(self.page.len()).expect("a page that is not too long");
        self.room
            .map_or(most, |room| most.min(room.saturating_mul(4)))
    }
}

/// `batch HEXPAGE room=EVENTS JOB JOB ..`
pub struct List {
    pub page: Vec<u8>,
    pub openings: Vec<Opening>,
    room: usize,
}

impl List {
    pub fn parse(line: &str) -> Option<List> {
        let mut fields = line.strip_prefix("batch ")?.split(' ');
        Some(List {
            page: from_hex(fields.next()?)?,
            room: decimal(fields.next()?.strip_prefix("room=")?)?,
            openings: fields.map(opening).collect::<Option<_>>()?,
        })
    }

    /// The words of an event buffer for the list, as for a case.
    pub fn words(&self) -> usize {
        let most = tarredlath::words_enough(self.page.len()).expect("a page that is not too long");
        (most * self.openings.len()).min(self.room.saturating_mul(4))
    }
}

/// `CONSTRUCT:KIND:FLAGS:START`. Flags that no byte holds are none that a list takes, nor is 255.
fn opening(field: &str) -> Option<Opening> {
    let mut parts = field.split(':');
    let construct = construct(parts.next()?)?;
    let context = context(parts.next()?)?;
    let flags = u8::try_from(decimal(parts.next()?)?).unwrap_or(u8::MAX);
    let start = decimal(parts.next()?)?;
    let job = Job {
        context,
        start,
        ..Job::new(construct)
    };
    parts.next().is_none().then_some(Opening {
        flags,
        ..Opening::of(&job)
    })
}

pub fn construct(letter: &str) -> Option<Construct> {
    match letter {
        "e" => Some(Construct::Expression),
        "t" => Some(Construct::Tag),
        "s" => Some(Construct::Esm),
        _ => None,
    }
}

pub fn context(letter: &str) -> Option<Context> {
    match letter {
        "f" => Some(Context::Flow),
        "t" => Some(Context::Text),
        _ => None,
    }
}

/// Whether a word is the second of two.
pub fn one_of(word: &str, no: &str, yes: &str) -> Option<bool> {
    (word == no || word == yes).then_some(word == yes)
}

/// `o`, `u<number>` or `e<number>@<offset>`.
pub fn verdict(text: &str) -> Option<raw::Verdict> {
    let number = |digits: &str| u32::try_from(decimal(digits)?).ok();
    let (verdict, number, offset) = match (text.get(..1)?, text.get(1..)?) {
        ("o", "") => (raw::verdict::OK, 0, 0),
        ("u", digits) => (raw::verdict::UNFINISHED, number(digits)?, 0),
        ("e", rest) => {
            let (digits, offset) = rest.split_once('@')?;
            (raw::verdict::ERROR, number(digits)?, decimal(offset)?)
        }
        _ => return None,
    };
    Some(raw::Verdict {
        verdict,
        number,
        offset,
    })
}

/// A verdict in types, where its number is one that a verdict may have.
pub fn typed(verdict: &raw::Verdict) -> Option<Verdict> {
    let number = u16::try_from(verdict.number).ok().and_then(NonZeroU16::new);
    match verdict.verdict {
        raw::verdict::OK => Some(Verdict::Ok),
        raw::verdict::UNFINISHED => number.map(Verdict::Unfinished),
        _ => Some(Verdict::Error {
            number: number?,
            offset: verdict.offset,
        }),
    }
}

pub fn decimal(text: &str) -> Option<usize> {
    let digits = !text.is_empty() && text.bytes().all(|byte| byte.is_ascii_digit());
    digits.then(|| text.parse().ok())?
}

/// Bytes from pairs of hexadecimal digits; `-` is no bytes.
pub fn from_hex(text: &str) -> Option<Vec<u8>> {
    if text == "-" {
        return Some(Vec::new());
    }
    let digit = |byte: u8| char::from(byte).to_digit(16);
    text.as_bytes()
        .chunks(2)
        .map(|pair| match *pair {
            [high, low] => u8::try_from(digit(high)? * 16 + digit(low)?).ok(),
            _ => None,
        })
        .collect()
}
