//! The steps of `fix`: what is tried on a library, and what each says of itself. Rests on check.

use std::collections::BTreeSet;
use std::fs;

use crate::built;
use crate::changes;
use crate::check::{Difference, check_cut, check_read, check_room, check_write};
use crate::entries::Entries;
use crate::random::Random;
use crate::records::Record;
use crate::writer::{Header, spell, write};

type Outcome = Result<String, Difference>;

/// Built records and headers: written into rooms of every kind, and read back.
pub fn built(entries: &Entries, drawn: u64) -> Outcome {
    let usual = Header::usual();
    let (mut calls, mut written) = (0, 0);
    let mut try_one = |record: &[u8], header: &Header| -> Result<(), Difference> {
        calls += 1;
        if let Some(message) = check_write(entries, record, header)? {
            written += 1;
            check_read(entries, &message)?;
        }
        Ok(())
    };
    for record in built::ALL.iter() {
        try_one(&record.bytes(), &usual)?;
    }
    for record in built::BROKEN.iter() {
        try_one(record, &usual)?;
        try_one(record, &Header { sender: Vec::new(), ..usual.clone() })?;
    }
    for kind in built::KINDS {
        let records = built::of_kind(kind);
        for header in built::HEADERS.iter() {
            try_one(&records[0].bytes(), header)?;
            // 4 stands before 9.
            let code = if kind == 17 { 13 } else { 7 };
            try_one(&records[0].clone().with(code, b"9").bytes(), header)?;
        }
        for record in [&records[0], &records[records.len() - 1]] {
            every_room(entries, record, &usual)?;
        }
    }
    for seed in 0..drawn {
        let mut random = Random::new(seed);
        let record = built::draw(&mut random).bytes();
        let header = if random.one_in(3) { random.pick(&built::HEADERS).clone() } else { usual.clone() };
        try_one(&record, &header)?;
    }
    Ok(format!(
        "{calls} built records written into rooms of 6 lengths and {written} messages read, no difference"
    ))
}

/// All rooms up to the length and some past it.
fn every_room(entries: &Entries, record: &Record, header: &Header) -> Result<(), Difference> {
    let message = write(&record.bytes(), header, usize::MAX);
    let rooms = 0..message.as_ref().map_or(0, Vec::len) + 40;
    rooms.into_iter().try_for_each(|room| check_room(entries, &record.bytes(), header, &message, room))
}

/// Answers cut into messages, each written and read back.
pub fn answers(entries: &Entries, files: &[&str]) -> Outcome {
    let mut seen = BTreeSet::new();
    let (mut cut, mut messages) = (0, [0; 5]);
    for file in files {
        let bytes = fs::read(file).map_err(|error| format!("{file}: {error}"))?;
        let answers = crate::stored::answers(&bytes).ok_or_else(|| format!("{file} holds no answers"))?;
        for answer in answers {
            cut += 1;
            let records = check_cut(entries, &answer)?;
            if records.len() != usize::from(answer[2]) {
                return Err(format!("{file} has an answer that is none: {answer:02x?}"));
            }
            for record in records {
                messages[usize::from(record[0].wrapping_sub(16)).min(4)] += 1;
                if seen.insert(record.clone())
                    && let Some(message) = check_write(entries, &record, &Header::usual())?
                {
                    check_read(entries, &message)?;
                }
            }
        }
    }
    let kinds: Vec<String> =
        messages.iter().zip(16..).map(|(count, kind)| format!("{count} of kind {kind}")).collect();
    Ok(format!(
        "{cut} answers cut into messages, {}; {} written and read, no difference",
        kinds.join(", "),
        seen.len()
    ))
}

/// Answers of built records, none, one and two; then broken in each byte, cut and with bytes behind.
pub fn cuts(entries: &Entries) -> Outcome {
    let records: Vec<Vec<u8>> =
        built::KINDS.into_iter().flat_map(built::of_kind).map(|record| record.bytes()).collect();
    let mut answers = vec![answer(&[])];
    for (at, first) in records.iter().enumerate() {
        let other = &records[records.len() - 1 - at];
        answers.extend([
            answer(&[first]),
            answer(&[first, other]),
            answer(&[first, first]),
            answer(&[first, first, other]),
        ]);
    }
    answers
        .extend(built::BROKEN.iter().flat_map(|broken| [answer(&[broken]), answer(&[&records[0], broken])]));
    answers.extend(built::ALL.iter().step_by(7).map(|record| answer(&[&record.bytes(), &records[0]])));
    let whole = answer(&[&records[1], &records[records.len() - 1]]);
    for at in 0..whole.len() {
        answers.push(whole[..at].to_vec());
        answers.push([&whole[..], &vec![0; at]].concat());
        answers.extend((0..=255).map(|byte| [&whole[..at], &[byte], &whole[at + 1..]].concat()));
    }
    for answer in &answers {
        check_cut(entries, answer)?;
    }
    Ok(format!("{} answers and what is none cut, no difference", answers.len()))
}

fn answer(messages: &[&Vec<u8>]) -> Vec<u8> {
    let length: usize = 5 + messages.iter().map(|message| message.len()).sum::<usize>();
    let mut bytes = (length as u16).to_le_bytes().to_vec();
    bytes.extend([messages.len() as u8, 0, 0]);
    messages.iter().for_each(|message| bytes.extend(*message));
    bytes
}

/// Messages of each kind changed in each byte, field and value, sums and lengths mended and not.
pub fn changed(entries: &Entries, drawn: u64) -> Outcome {
    let (mut tried, mut taken) = (0_u64, 0_u64);
    let mut try_all = |changed: Vec<Vec<u8>>| -> Result<(), Difference> {
        for message in changed.into_iter().flat_map(changes::mended) {
            tried += 1;
            taken += u64::from(check_read(entries, &message)?);
        }
        Ok(())
    };
    for (message, whole) in messages(drawn) {
        let every: Vec<u8> = (0..=255).collect();
        let some = b"0159=\x01 .N\x1F\0\xFF";
        try_all(vec![message.clone()])?;
        try_all(changes::names(&message))?;
        try_all(changes::values(&message))?;
        try_all(changes::fields(&message))?;
        try_all(changes::bytes(&message, if whole { &every } else { some }))?;
    }
    Ok(format!("{tried} changed messages read, {taken} of them as some record writes them, no difference"))
}

/// Messages to change: of each kind the fullest and the barest, and the fullest with the other text;
/// then some by chance. Whether each byte is to take every value.
fn messages(drawn: u64) -> Vec<(Vec<u8>, bool)> {
    let spelled = |record: &Record, header: &Header| write(&record.bytes(), header, usize::MAX).ok();
    let mut all = Vec::new();
    let none = built::of_kind(19).pop().map(|record| record.with(18, b"NONE"));
    all.extend(none.and_then(|record| spelled(&record, &Header::usual())).map(|message| (message, false)));
    for kind in built::KINDS {
        let records = built::of_kind(kind);
        let count = |record: &Record| record.fields.iter().flatten().count();
        let fullest = records.iter().map(count).max();
        let barest = records.iter().map(count).min();
        for record in
            records.iter().filter(|record| Some(count(record)) == fullest || Some(count(record)) == barest)
        {
            all.extend(
                spelled(record, &Header::usual()).map(|message| (message, Some(count(record)) == fullest)),
            );
        }
    }
    for seed in 0..drawn {
        let mut random = Random::new(1_000_000 + seed);
        let record = built::draw(&mut random);
        all.extend(spelled(&record, &Header::new(b"S", b"T", seed, b"T")).map(|message| (message, false)));
    }
    let short: [Vec<u8>; 3] =
        [Vec::new(), b"8=FIX.4.4\x01".to_vec(), spell(&[(8, b"FIX.4.4".to_vec()), (10, b"000".to_vec())])];
    all.extend(short.map(|message| (message, false)));
    all
}
