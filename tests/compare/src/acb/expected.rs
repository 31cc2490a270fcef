//! The reference's answers in the shape of the library's, and headers in the
//! shape of either.

use crate::expected;
use generate::acb as made;
use proved::acb::{Answer, Full, Header, Page, Record, Shown, Text};
use proved::Written;
use reference::acb::{self, Accepted, Tag};
use reference::Refusal;

pub fn answer(result: Result<Accepted, Refusal>) -> Answer {
    match result {
        Ok(Accepted { count, header }) => Answer {
            count,
            header: library_header(&header),
            ..Answer::default()
        },
        Err(Refusal { number, place, .. }) => Answer {
            number,
            place,
            ..Answer::default()
        },
    }
}

pub fn record(result: Result<acb::Record, Refusal>) -> Record {
    match result {
        Ok(acb::Record {
            name,
            code,
            components,
            ink,
        }) => Record {
            name: name.place,
            units: name.units,
            code,
            components,
            ink,
            ..Record::default()
        },
        Err(Refusal { number, place, .. }) => Record {
            number,
            place,
            ..Record::default()
        },
    }
}

pub fn shown(result: Result<acb::Shown, Refusal>) -> Shown {
    match result {
        Ok(acb::Shown { count, values }) => Shown {
            count: count as u32,
            values,
            ..Shown::default()
        },
        Err(Refusal { number, place, .. }) => Shown {
            number,
            place,
            ..Shown::default()
        },
    }
}

pub fn full(result: Result<usize, Refusal>) -> Full {
    match result {
        Ok(length) => Full {
            length,
            ..Full::default()
        },
        Err(Refusal { number, place, .. }) => Full {
            number,
            place,
            ..Full::default()
        },
    }
}

pub fn page(result: Result<usize, Refusal>) -> Page {
    match result {
        Ok(record) => Page {
            record,
            ..Page::default()
        },
        Err(Refusal { number, place, .. }) => Page {
            number,
            place,
            ..Page::default()
        },
    }
}

/// What writing under a header answers.
pub fn written(
    header: &Header,
    write: impl FnOnce(&acb::Header) -> Result<usize, Refusal>,
) -> Written {
    expected::written(write(&reference_header(header)))
}

fn library_header(header: &acb::Header) -> Header {
    let text = |text: acb::Text| Text {
        place: text.place,
        units: text.units,
    };
    Header {
        identifier: header.identifier,
        page_size: header.page_size,
        page_offset: header.page_offset,
        space: header.space,
        tag: match header.tag {
            Tag::None => 0,
            Tag::Spot => 1,
            Tag::Process => 2,
            Tag::Other => unreachable!("no file is read with another tag"),
        },
        title: text(header.title),
        prefix: text(header.prefix),
        suffix: text(header.suffix),
        description: text(header.description),
    }
}

/// A number that is no tag is another one.
fn reference_header(header: &Header) -> acb::Header {
    let text = |text: Text| acb::Text {
        place: text.place,
        units: text.units,
    };
    acb::Header {
        identifier: header.identifier,
        page_size: header.page_size,
        page_offset: header.page_offset,
        space: header.space,
        tag: match header.tag {
            0 => Tag::None,
            1 => Tag::Spot,
            2 => Tag::Process,
            _ => Tag::Other,
        },
        title: text(header.title),
        prefix: text(header.prefix),
        suffix: text(header.suffix),
        description: text(header.description),
    }
}

/// A made-up header as the library is handed it.
pub fn made_header(header: &made::Header) -> Header {
    let text = |index: usize| {
        let (place, units) = header.strings[index];
        Text { place, units }
    };
    Header {
        identifier: header.identifier,
        page_size: header.page_size,
        page_offset: header.page_offset,
        space: header.space,
        tag: header.tag,
        title: text(0),
        prefix: text(1),
        suffix: text(2),
        description: text(3),
    }
}
