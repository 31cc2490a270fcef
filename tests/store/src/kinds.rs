//! The kinds of files: those that are stored, their listings, and the largest.

use generate::resource::{self, Document, Section};
use generate::{acb, ase, descriptor, Palette, Random};
use reference::LISTING_LIMIT;

const SEED: u64 = 1;

/// A title, and a file's bytes.
pub type Titled = (String, Vec<u8>);

pub struct Kind {
    /// The files' ending, and the name of their folder.
    pub ending: &'static str,
    pub fixed: fn() -> Vec<Titled>,
    pub list: fn(&[u8]) -> String,
    /// What a listing can say: 0 for accepted, and each refusal's number.
    pub numbers: &'static [u32],
    /// The longest input that is listed.
    pub limit: usize,
    /// Makes an accepted file too long to list, if only by a byte.
    pub lengthen: fn(&mut Vec<u8>, usize),
    /// Sound files as long as the limit, or nearly so.
    pub largest: fn(usize) -> Vec<Titled>,
}

pub const KINDS: [Kind; 6] = [
    Kind {
        ending: "aco",
        fixed: || titled(generate::fixed_files(), |fixed| (fixed.title, fixed.file)),
        list: reference::list,
        numbers: &[0, 1, 2, 3, 4, 5, 6, 7, 8],
        limit: LISTING_LIMIT,
        lengthen: add_zeros,
        largest: |limit| {
            let named = |colours| Palette::of_length(&mut random(), colours, limit).file();
            let most = (limit - 8) / 26;
            vec![
                ("one name".to_string(), named(1)),
                ("most colours with names".to_string(), named(most)),
            ]
        },
    },
    Kind {
        ending: "ase",
        fixed: || titled(ase::fixed_files(), |fixed| (fixed.title, fixed.file)),
        list: reference::ase::list,
        numbers: &[0, 1, 2, 3, 4, 5, 6, 8, 9, 10, 13],
        limit: LISTING_LIMIT,
        lengthen: add_zeros,
        largest: |limit| {
            let named = |colours| ase::Palette::of_length(&mut random(), colours, limit).file();
            let groups = ase::Palette::empty_groups((limit - 12) / 16).file();
            vec![
                ("one name".to_string(), named(1)),
                ("most colours".to_string(), named((limit - 12) / 28)),
                ("most blocks".to_string(), groups),
            ]
        },
    },
    Kind {
        ending: "acb",
        // All but those that another's book is in: what is stored is our own.
        fixed: || {
            let mut files = titled(acb::fixed_files(), |fixed| (fixed.title, fixed.file));
            files.retain(|(title, _)| !title.starts_with("ANPA"));
            files
        },
        list: reference::acb::list,
        numbers: &[0, 1, 2, 3, 4, 5, 6],
        limit: LISTING_LIMIT,
        lengthen: add_zeros,
        largest: |limit| {
            let named = |colours| acb::Book::of_length(&mut random(), colours, limit);
            let mut pages = named((limit - 32) / 14);
            pages.page_size = 1;
            vec![
                ("one name".to_string(), named(1).file()),
                ("most records and pages".to_string(), pages.file()),
            ]
        },
    },
    Kind {
        ending: "desc",
        fixed: || titled(descriptor::fixed_files(), |fixed| (fixed.title, fixed.file)),
        list: reference::descriptor::list,
        numbers: &[0, 1, 2, 3, 4, 5, 6, 8, 10],
        limit: reference::descriptor::LISTING_LIMIT,
        lengthen: add_zeros,
        largest: |limit| {
            vec![
                ("most rows".to_string(), descriptor::flat(limit).file),
                ("deepest".to_string(), descriptor::deep(limit).file),
                (
                    "every type".to_string(),
                    descriptor::wide(&mut random(), limit).file,
                ),
            ]
        },
    },
    Kind {
        ending: "8bim",
        fixed: || {
            titled(resource::fixed_sections(), |fixed| {
                (fixed.title, fixed.file)
            })
        },
        list: reference::resource::list,
        numbers: &[0, 1, 2, 3, 5],
        limit: LISTING_LIMIT,
        lengthen: add_zeros,
        largest: |limit| {
            let one = Section::of_length(&mut random(), 1, limit);
            let most = Section::bare(limit / 12);
            vec![
                ("one block".to_string(), one.bytes()),
                ("most blocks".to_string(), most.bytes()),
            ]
        },
    },
    Kind {
        ending: "psd",
        fixed: || {
            titled(resource::fixed_documents(), |fixed| {
                (fixed.title, fixed.file)
            })
        },
        list: reference::resource::list,
        numbers: &[0, 1, 2, 3, 5],
        limit: LISTING_LIMIT,
        // What stands behind the section may be as long as it likes.
        lengthen: |file, limit| {
            let section = Section::of_length(&mut random(), 1, limit).bytes();
            *file = Document::holding(section).file();
        },
        largest: |limit| {
            let mut document = Document::holding(Vec::new());
            let room = limit - document.section_place();
            document.section = Section::bare(room / 12).bytes();
            document.behind = vec![0; limit];
            vec![("most blocks".to_string(), document.file())]
        },
    },
];

fn add_zeros(file: &mut Vec<u8>, limit: usize) {
    file.resize(limit + 1, 0);
}

fn random() -> Random {
    Random::new(SEED)
}

fn titled<F, T: ToString>(files: Vec<F>, parts: impl Fn(F) -> (T, Vec<u8>)) -> Vec<Titled> {
    let titled = |file| {
        let (title, file) = parts(file);
        (title.to_string(), file)
    };
    files.into_iter().map(titled).collect()
}
