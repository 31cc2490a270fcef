//! A palette in chunks, rule by rule.

use generate::{chunks, damage, Cutting, Damage, Palette, Random};
use reference::chunks::{feed, finish, start, Fed, Finished, STORE_LEN};
use reference::{judge, number, Accepted, Refusal, LIMIT};

/// P3: one colour, named `A`.
const P3: [u8; 36] = [
    0x00, 0x01, 0x00, 0x01, 0x00, 0x00, 0xFF, 0xFF, 0x00, 0x00, 0x80, 0x80, //
    0x00, 0x00, 0x00, 0x02, 0x00, 0x01, 0x00, 0x00, 0xFF, 0xFF, 0x00, 0x00, //
    0x80, 0x80, 0x00, 0x00, 0x00, 0x00, 0x00, 0x02, 0x00, 0x41, 0x00, 0x00,
];

fn taken(chunks: &[&[u8]]) -> (Result<Accepted, Refusal>, Vec<u8>) {
    let mut store = vec![7; STORE_LEN + 1];
    let mut stream = start(&store).stream;
    for chunk in chunks {
        let fed = feed(stream, &mut store, chunk);
        assert_eq!(fed.number, 0);
        stream = fed.stream;
    }
    (finish(stream, &store).answer, store)
}

/// T1, T2: cut anywhere, with chunks of no bytes.
#[test]
fn cut_anywhere() {
    for cut in 0..=P3.len() {
        let (front, back) = P3.split_at(cut);
        assert_eq!(taken(&[front, &[], back]).0, judge(&P3));
        assert_eq!(
            taken(&[&front[..cut / 2], &front[cut / 2..]]).0,
            judge(front)
        );
    }
}

/// T2: whatever is wrong with a file, and wherever it is cut, the end says what the
/// whole file does, and the store has the colours before the place it says.
#[test]
fn made_up_files_cut_in_every_way() {
    for seed in 0..4_000 {
        let mut random = Random::new(seed);
        let palette = Palette::small(&mut random);
        let mut file = palette.file();
        for _ in 0..random.below(4) {
            damage(&mut file, &palette, Damage::any(&mut random), &mut random);
        }
        let wanted = judge(&file);
        let count = file.get(2..4).map_or(0, |field| {
            256 * usize::from(field[0]) + usize::from(field[1])
        });
        let whole = match wanted {
            Ok(accepted) => accepted.colours,
            Err(refusal) => (refusal.place.saturating_sub(4) / 10).min(count),
        };
        for cutting in Cutting::ALL {
            let places = cutting.places(&palette, file.len(), &mut random);
            let (answer, store) = taken(&chunks(&file, &places));
            assert_eq!(answer, wanted, "seed {seed} cut at {places:?}");
            let end = 10 * whole;
            assert!(
                whole == 0 || store[..end] == file[4..4 + end],
                "seed {seed}"
            );
            assert!(store[end..].iter().all(|byte| *byte == 7), "seed {seed}");
        }
    }
}

/// T3: the colours before the first fault, and none with one.
#[test]
fn colours_before_the_fault() {
    let (_, store) = taken(&[&P3]);
    assert_eq!(store[..10], P3[4..14]);
    assert!(store[10..].iter().all(|byte| *byte == 7));
    let mut wrong = P3;
    wrong[13] = 1;
    for chunk in [1, 13, 36] {
        let chunks: Vec<&[u8]> = wrong.chunks(chunk).collect();
        let (answer, store) = taken(&chunks);
        assert_eq!(answer.unwrap_err().number, number::OUT_OF_RANGE);
        assert!(store.iter().all(|byte| *byte == 7));
    }
}

/// T4: bytes are counted past the first fault.
#[test]
fn too_many_bytes() {
    let zeros = vec![0; LIMIT];
    assert_eq!(
        taken(&[&zeros]).0.unwrap_err().number,
        number::WRONG_VERSION
    );
    assert_eq!(
        taken(&[&zeros, &[0]]).0.unwrap_err().number,
        number::TOO_LONG
    );
}

/// T5, T6: 5 before 11, and nothing changes.
#[test]
fn short_stores_and_ended_streams() {
    let mut store = vec![7; STORE_LEN];
    let short = &mut vec![7; STORE_LEN - 1][..];
    let Fed { number, stream } = start(short);
    assert_eq!(number, number::NO_ROOM);
    assert_eq!(feed(stream, &mut store, &P3).number, number::OUT_OF_RANGE);
    let stream = start(&store).stream;
    let refused = feed(stream, short, &P3);
    assert_eq!((refused.number, refused.stream), (number::NO_ROOM, stream));
    let Finished { answer, stream } = finish(stream, &store);
    assert_eq!(answer, judge(&[]));
    assert_eq!(feed(stream, short, &P3).number, number::OUT_OF_RANGE);
    let again = finish(stream, &store);
    assert_eq!(again.answer.unwrap_err().number, number::OUT_OF_RANGE);
    assert_eq!(again.stream, stream);
}
