//! Books that are refused with their sheet, their bytes or their rows: what goes first, and rows that fail before.

use super::*;
use crate::hand_books::rows::*;

pub fn cases() -> Cases {
    [sheets(), counts(), high_counts(), cut_or_longer(), damaged(), bad_rows(), first_of_several(), one_numbers()]
        .concat()
}

/// The count 201 is C9 01.
const TOO_MANY: &[u8] = &[0xC9, 0x01];

/// Books behind a bad sheet: each stands or is refused in its own way.
fn books() -> Vec<Vec<u8>> {
    let (cut, longer) = (BOOK_J[..38].to_vec(), [&BOOK_J[..], &[0x00]].concat());
    let stands = [vec![], vec![0x00], BOOK_J.to_vec(), book(&[0x01], &[STRONG_GROUPS]), BOOK_J_K.to_vec()];
    let refused = [vec![0x80], vec![0x80, 0x00], TOO_MANY.to_vec(), vec![0x00, 0x00], cut, longer];
    let bad = [book(&[0x01], &[PAD_GROUPS]), book(&[0x02], &[J_GROUPS, THREE_GROUPS])];
    [stands.to_vec(), refused.to_vec(), bad.to_vec()].concat()
}

/// 1 with the length in bytes, then 2 with the first damaged entry; both before anything is asked of the book.
fn sheets() -> Cases {
    let refused = |sheet: &[u8], number, place| books().iter().all(|book| is_refused_under(sheet, book, number, place));
    let lengths = [0, 1, 251, 500, 501, 503, 504, 1_004].map(|length: usize| {
        let mut sheet = to_bytes(&sheet_t());
        sheet.resize(length, 0);
        (format!("a sheet of {length} bytes before each book"), refused(&sheet, 1, length as u64))
    });
    // Entries 0 and 1 of T are 1,000 and 996, entry 9 is 964, entries 213 to 250 are 150.
    let damages = [(0, 0), (0, 1_001), (2, 997), (10, 965), (100, 0), (249, 151), (250, 151), (250, 116), (250, 0)];
    let damages = damages.map(|(k, entry)| {
        let mut sheet = sheet_t();
        sheet[k] = entry;
        (format!("entry {k} at {entry} before each book"), refused(&to_bytes(&sheet), 2, k as u64))
    });
    let mut short = sheet_t();
    short[0] = 0;
    let short = &to_bytes(&short)[..501];
    let both = named([("a short sheet with a damaged entry before each book", refused(short, 1, 501))]);
    [named(lengths), named(damages), both].concat()
}

/// 9 at 0 of a damaged count; no bytes at all are not one.
fn counts() -> Cases {
    let mut cases = Cases::new();
    for (name, count) in [
        ("a cut count", &[0x80][..]),
        ("a count cut after three bytes", &[0xFF, 0xFF, 0xFF]),
        ("0 in two bytes", &[0x80, 0x00]),
        ("1 in two bytes", &[0x81, 0x00]),
        ("201 in three bytes", &[0xC9, 0x81, 0x00]),
        ("a count of six bytes", &[0x81, 0x80, 0x80, 0x80, 0x80, 0x00]),
        ("4,294,967,296", &[0x80, 0x80, 0x80, 0x80, 0x10]),
    ] {
        cases.extend(named([(format!("{name}, alone"), is_refused(count, 9, 0))]));
        // What is only cut off would go on in what follows.
        if count.iter().any(|&byte| byte < 0x80) {
            let followed = [count, &BOOK_J[1..]].concat();
            cases.extend(named([(format!("{name}, J behind it"), is_refused(&followed, 9, 0))]));
        }
    }
    cases
}

/// 10 with the count, whatever follows.
fn high_counts() -> Cases {
    // 257 = 2 × 128 + 1; 65,537 = 4 × 16,384 + 1; 4,294,967,295 is four groups of seven set bits and one of four.
    let counts = [
        (201, TOO_MANY),
        (256, &[0x80, 0x02]),
        (257, &[0x81, 0x02]),
        (65_536, &[0x80, 0x80, 0x04]),
        (65_537, &[0x81, 0x80, 0x04]),
        (4_294_967_295, &[0xFF, 0xFF, 0xFF, 0xFF, 0x0F]),
    ];
    let follows = [vec![], vec![0x80], vec![0x80, 0x00], BOOK_J[1..].to_vec(), book(&[], &vec![J_GROUPS; 201])];
    named(counts.map(|(count, groups)| {
        let holds = follows.iter().all(|behind| is_refused(&[groups, behind].concat(), 10, count));
        (format!("the count {count} with nothing, damage or rows behind it"), holds)
    }))
}

/// 9 with the number that is cut off, or with the first byte too many; J would fail, were it whole.
fn cut_or_longer() -> Cases {
    let cut = |length: usize| {
        let at = BOOK_J_AT.iter().rev().find(|&&at| at <= length).map_or(0, |&at| at);
        (format!("J cut to {length} bytes"), is_refused(&BOOK_J[..length], 9, at as u64))
    };
    let longer = |more: &[u8]| is_refused(&[&BOOK_J, more].concat(), 9, 39);
    let after_none = |more: &[u8]| is_refused(&[&[0x00], more].concat(), 9, 1);
    let more: [&[u8]; 5] = [&[0x00], &[0x80], &[0x0A], &[0x01; 100], &BOOK_J];
    let longer = [
        ("J and bytes more".to_string(), more.into_iter().all(longer)),
        ("no rows and bytes more".to_string(), more.into_iter().all(after_none)),
        ("no rows and J's columns".to_string(), after_none(&BOOK_J[1..])),
        // The pads of two rows are the last numbers: K's begins at 76.
        ("J and K cut to 77".to_string(), is_refused(&BOOK_J_K[..77], 9, 76)),
        ("J and K and a byte more".to_string(), is_refused(&[&BOOK_J_K[..], &[0x00]].concat(), 9, 78)),
        // A count of 2 and J alone: K's family is J's tube, and the numbers end at 39, where the 37th is missing.
        ("a count of 200 alone".to_string(), is_refused(&[0xC8, 0x01], 9, 2)),
        ("a count of 1 alone".to_string(), is_refused(&[0x01], 9, 1)),
    ];
    [named((1..39).map(cut)), named(longer)].concat()
}

/// 9 with a damaged number's offset, row 0 being J, which fails.
fn damaged() -> Cases {
    let damages: [&[u8]; 3] = [&[0x80, 0x00], &[0x80, 0x80, 0x80, 0x80, 0x10], &[0x81, 0x80, 0x80, 0x80, 0x80, 0x00]];
    // In J and K: K's first number at 2, its Q at 32, its pad at 76; J's pad at 74.
    let places = [(1, 2), (12, 32), (25, 76)];
    let of_k = places.map(|(field, at)| {
        let holds = damages
            .iter()
            .all(|&groups| is_refused(&book(&[0x02], &[J_GROUPS, groups_with(K_GROUPS, field, groups)]), 9, at));
        (format!("J, then field {field} of K damaged"), holds)
    });
    let of_j =
        damages.iter().all(|&groups| is_refused(&book(&[0x02], &[groups_with(J_GROUPS, 25, groups), K_GROUPS]), 9, 74));
    [named(of_k), named([("J's pad damaged, then K", of_j)])].concat()
}

/// 11 with the lowest bad row, also behind a row that fails.
fn bad_rows() -> Cases {
    let is_bad = |count: u8, rows: &[[&[u8]; 25]], place| is_refused(&book(&[count], rows), 11, place);
    // Five working layers on four: 4. 4,294,967,295 as bay: 3.
    let layers = groups_with(J_GROUPS, 10, &[0x05]);
    let bay = groups_with(J_GROUPS, 4, &[0xFF, 0xFF, 0xFF, 0xFF, 0x0F]);
    let bad = [PAD_GROUPS, FAMILY_GROUPS, THIN_GROUPS, THREE_GROUPS, layers, bay];
    let each = |rows: fn([&'static [u8]; 25]) -> Vec<[&'static [u8]; 25]>, place| {
        bad.iter().all(|&bad| is_bad(rows(bad).len() as u8, &rows(bad), place))
    };
    let mut far = vec![STRONG_GROUPS; 200];
    (far[0], far[199]) = (J_GROUPS, PAD_GROUPS);
    named([
        ("a bad row alone", each(|bad| vec![bad], 0)),
        ("a bad row behind J", each(|bad| vec![J_GROUPS, bad], 1)),
        ("a bad row before J", each(|bad| vec![bad, J_GROUPS], 0)),
        ("a bad row behind a row that passes", each(|bad| vec![STRONG_GROUPS, bad], 1)),
        ("a bad row between J and K", each(|bad| vec![J_GROUPS, bad, K_GROUPS], 1)),
        ("a bad row far behind J", each(|bad| vec![J_GROUPS, J_GROUPS, STRONG_GROUPS, J_GROUPS, bad], 4)),
        ("two bad rows behind J", each(|bad| vec![J_GROUPS, bad, PAD_GROUPS], 1)),
        ("row 199 bad, row 0 failing", is_refused(&book(&[0xC8, 0x01], &far), 11, 199)),
    ])
}

/// 9 of the count, 10, 9, 11: each two of them and more, with J before.
fn first_of_several() -> Cases {
    let damaged_pad = groups_with(J_GROUPS, 25, &[0xD0, 0x8F, 0x00]);
    let longer = |book: Vec<u8>| [&book[..], &[0x00]].concat();
    let all = groups_with(damaged_pad, 1, &[0x03]);
    named([
        ("9 at 0 before 10", is_refused(&book(&[0xC9, 0x81, 0x00], &vec![J_GROUPS; 201]), 9, 0)),
        ("9 at 0 before 9", is_refused(&book(&[0x81, 0x00], &[damaged_pad]), 9, 0)),
        ("9 at 0 before 11", is_refused(&book(&[0x81, 0x00], &[THREE_GROUPS]), 9, 0)),
        ("10 before 9", is_refused(&book(TOO_MANY, &vec![damaged_pad; 201]), 10, 201)),
        ("10 before bytes more", is_refused(&longer(book(TOO_MANY, &vec![J_GROUPS; 201])), 10, 201)),
        ("10 before 11", is_refused(&book(TOO_MANY, &vec![THREE_GROUPS; 201]), 10, 201)),
        ("10 before 9 and 11", is_refused(&longer(book(TOO_MANY, &vec![all; 201])), 10, 201)),
        // The pads of two rows of J's lengths are at 73 and 75.
        ("9 in row 1 before 11 of row 0", is_refused(&book(&[0x02], &[THREE_GROUPS, damaged_pad]), 9, 75)),
        ("9 in row 1 behind J", is_refused(&book(&[0x02], &[J_GROUPS, damaged_pad]), 9, 75)),
        ("9 at 37 before bytes more", is_refused(&longer(book(&[0x01], &[damaged_pad])), 9, 37)),
        // J and a row with a pad of one byte: 1 + 38 + 37 bytes.
        ("bytes more before 11", is_refused(&longer(book(&[0x02], &[J_GROUPS, PAD_GROUPS])), 9, 76)),
    ])
}

/// Refusal × 4,294,967,296 + place.
fn one_numbers() -> Cases {
    let sheet = to_bytes(&sheet_t());
    let mut last = sheet_t();
    last[250] = 116;
    named([
        ("1 at 501", is_so(&sheet[..501], &[], (4_294_967_797, BEFORE))),
        ("2 at 250", is_so(&to_bytes(&last), &[], (8_589_934_842, BEFORE))),
        ("9 at 39", is_so(&sheet, &[&BOOK_J[..], &[0x00]].concat(), (38_654_705_703, BEFORE))),
        ("10 at 201", is_so(&sheet, TOO_MANY, (42_949_673_161, BEFORE))),
        ("11 at 1", is_so(&sheet, &book(&[0x02], &[J_GROUPS, PAD_GROUPS]), (47_244_640_257, BEFORE))),
    ])
}
