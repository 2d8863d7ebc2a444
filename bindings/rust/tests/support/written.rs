//! Answers and events, as docs/FORMATS.md has them.

use tarredlath::{Answer, Edge, Events, Note, Place, Refusal};

/// An answer's name and values. `Asking` has its body behind it, which the caller writes.
pub fn answer(answer: &Answer) -> String {
    match answer {
        Answer::Done { end, .. } => format!("Done {end}"),
        Answer::Nok { .. } => "Nok".into(),
        Answer::NotAscii { place, .. } => format!("NotAscii {}", at(place)),
        Answer::Eof { place, reading, .. } => format!("Eof {} {}", at(place), reading.number()),
        Answer::Unexpected {
            place,
            reading,
            note,
            ..
        } => {
            let note = note.map_or(0, Note::number);
            format!("Unexpected {} {} {note}", at(place), reading.number())
        }
        Answer::VerdictError { place, number, .. } => {
            format!("VerdictError {} {number}", at(place))
        }
        Answer::VerdictEof { place, number, .. } => format!("VerdictEof {} {number}", at(place)),
        Answer::Full { place, .. } => format!("Full {}", at(place)),
        Answer::Asking { place, .. } => format!("Asking {}", at(place)),
        Answer::Paused { place, .. } => format!("Paused {}", at(place)),
        Answer::Refused(Refusal::BadText(place)) => format!("BadText {}", at(place)),
        Answer::Refused(refusal) => format!("{refusal:?}"),
    }
}

/// `events +NAME@OFFSET:LINE:COLUMN -NAME@OFFSET:LINE:COLUMN~V ..`
pub fn events(events: Events<'_>) -> String {
    let mut text = String::from("events");
    for event in events {
        let sign = match event.edge {
            Edge::Enter => '+',
            Edge::Exit => '-',
        };
        text += &format!(" {sign}{}@{}", event.kind, at(&event.place));
        if event.tab_columns > 0 {
            text += &format!("~{}", event.tab_columns);
        }
    }
    text
}

/// Bytes as pairs of hexadecimal digits; no bytes are `-`.
pub fn hex(bytes: &[u8]) -> String {
    if bytes.is_empty() {
        return "-".into();
    }
    bytes.iter().map(|byte| format!("{byte:02x}")).collect()
}

fn at(place: &Place) -> String {
    format!("{}:{}:{}", place.offset, place.line, place.column)
}
