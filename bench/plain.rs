// The same job as a plain Rust program, without checks or proofs: rustc -O bench/plain.rs
// It is a yardstick of time and memory, and a second opinion on every byte of a report.
use std::collections::HashSet;
use std::io::{Read, Write};
use std::ops::RangeInclusive;

const BLOCK: usize = 512;
const INITIATORS: usize = 16;

const MOST_SCRIPT: u64 = 8_388_608;
const MOST_LINES: usize = 65_536;
const MOST_COMMANDS: usize = 16_384;
const MOST_TASKS: usize = 1_024;
const MOST_CDB: usize = 32;
const MOST_DATA: usize = 131_072;
const MOST_DATA_TOGETHER: usize = 134_217_728;
const MOST_OPERATIONS: u64 = 262_144;
const MOST_REGISTRANTS: usize = 64;
const MOST_STEP: u32 = 65_536;

// The script

enum Line {
    Lun { blocks: u32, depth: usize, pool: u32 },
    Port,
    Map { initiator: u8 },
    Command(Box<Command>),
    Ask { initiator: u8, function: Function },
    Step { number: u32, blocks: u32 },
    Drain,
    Sync,
}

#[derive(Clone, Copy, PartialEq)]
enum Attribute {
    Simple,
    Ordered,
    Head,
}

/// A task management function; the two that have a tag name the command of the asker.
#[derive(Clone, Copy, PartialEq)]
enum Function {
    AbortTask(u32),
    AbortTaskSet,
    ClearTaskSet,
    LunReset,
    NexusReset,
    QueryTask(u32),
    QueryTaskSet,
    ClearAca,
}

struct Command {
    initiator: u8,
    tag: u32,
    attribute: Attribute,
    op: Result<Op, u16>,
    /// The data-out, or None where it is longer than a line may have it.
    out: Option<Vec<u8>>,
}

#[derive(Debug, Clone, Copy, PartialEq)]
enum Fault {
    Form,
    Name,
    Limit,
}

#[derive(Default)]
struct Script {
    lines: Vec<Line>,
    unit: Option<(u32, usize, u32)>,
    port: bool,
    initiators: HashSet<u8>,
    acts: bool,
    commands: usize,
    functions: usize,
    data: usize,
    operations: u64,
}

/// The value of a decimal number without leading zeros, or the greatest where it is greater.
fn decimal(word: &[u8]) -> Option<u64> {
    if word.is_empty() || word.len() > 1 && word[0] == b'0' || !word.iter().all(u8::is_ascii_digit) {
        return None;
    }
    Some(word.iter().fold(0u64, |value, digit| value.saturating_mul(10).saturating_add((digit - b'0') as u64)))
}

fn number(word: &[u8], range: RangeInclusive<u32>) -> Option<u32> {
    let is_in_range = |value: &u64| (*range.start() as u64..=*range.end() as u64).contains(value);
    decimal(word).filter(is_in_range).map(|value| value as u32)
}

const NO_DIGIT: u8 = 0xff;

const DIGITS: [u8; 256] = {
    let mut digits = [NO_DIGIT; 256];
    let mut value = 0;
    while value < 16 {
        digits[b"0123456789abcdef"[value] as usize] = value as u8;
        digits[b"0123456789ABCDEF"[value] as usize] = value as u8;
        value += 1;
    }
    digits
};

fn pair(digits: &[u8]) -> Option<u8> {
    let (high, low) = (DIGITS[digits[0] as usize], DIGITS[digits[1] as usize]);
    (high | low != NO_DIGIT).then_some(high << 4 | low)
}

/// The bytes of a byte text: None where it has no form of one, Some(None) where they are more than the most.
fn byte_text(text: &[u8], most: usize) -> Option<Option<Vec<u8>>> {
    let mut bytes = Vec::new();
    let mut is_long = false;
    for piece in text.split(|byte| *byte == b'.') {
        if piece.len() > 2 && piece[2] == b'*' {
            let byte = pair(piece)?;
            let count = decimal(&piece[3..]).filter(|count| *count > 0)?;
            is_long |= count > (most - bytes.len()) as u64;
            if !is_long {
                bytes.resize(bytes.len() + count as usize, byte);
            }
        } else {
            if piece.is_empty() || piece.len() % 2 != 0 {
                return None;
            }
            is_long |= piece.len() / 2 > most - bytes.len();
            if is_long {
                piece.chunks_exact(2).map(pair).collect::<Option<Vec<u8>>>()?;
            } else {
                bytes.reserve(piece.len() / 2);
                for digits in piece.chunks_exact(2) {
                    bytes.push(pair(digits)?);
                }
            }
        }
    }
    Some((!is_long).then_some(bytes))
}

fn parse_line(text: &[u8]) -> Option<Line> {
    let words: Vec<&[u8]> = text.split(|byte| *byte == b' ').collect();
    Some(match words[..] {
        [b"lun", b"0", b"blocks", blocks] => Line::Lun { blocks: number(blocks, 1..=65_536)?, depth: 64, pool: 1024 },
        [b"lun", b"0", b"blocks", blocks, b"depth", depth, b"pool", pool] => Line::Lun {
            blocks: number(blocks, 1..=65_536)?,
            depth: number(depth, 1..=256)? as usize,
            pool: number(pool, 1..=4096)?,
        },
        [b"port", b"0", b"a"] => Line::Port,
        [b"map", initiator, b"0", b"0", b"0"] => Line::Map { initiator: number(initiator, 0..=15)? as u8 },
        [b"cmd", initiator, b"0", b"0", tag, attribute, cdb, ref data @ ..] if data.len() <= 1 => {
            Line::Command(Box::new(Command {
                initiator: number(initiator, 0..=15)? as u8,
                tag: number(tag, 0..=u32::MAX)?,
                attribute: match attribute {
                    b"simple" => Attribute::Simple,
                    b"ordered" => Attribute::Ordered,
                    b"head" => Attribute::Head,
                    _ => return None,
                },
                op: decode(&byte_text(cdb, MOST_CDB)??),
                out: data.first().map_or(Some(Some(Vec::new())), |text| byte_text(text, MOST_DATA))?,
            }))
        }
        [b"task", initiator, b"0", b"0", name, ref tag @ ..] if tag.len() <= 1 => {
            let tag = match tag.first() {
                Some(tag) => Some(number(tag, 0..=u32::MAX)?),
                None => None,
            };
            Line::Ask {
                initiator: number(initiator, 0..=15)? as u8,
                function: match (name, tag) {
                    (b"abort-task", Some(tag)) => Function::AbortTask(tag),
                    (b"query-task", Some(tag)) => Function::QueryTask(tag),
                    (b"abort-task-set", None) => Function::AbortTaskSet,
                    (b"clear-task-set", None) => Function::ClearTaskSet,
                    (b"lun-reset", None) => Function::LunReset,
                    (b"nexus-reset", None) => Function::NexusReset,
                    (b"query-task-set", None) => Function::QueryTaskSet,
                    (b"clear-aca", None) => Function::ClearAca,
                    _ => return None,
                },
            }
        }
        [b"step", b"0", command, blocks] => {
            Line::Step { number: number(command, 0..=u32::MAX)?, blocks: number(blocks, 1..=MOST_STEP)? }
        }
        [b"drain", b"0"] => Line::Drain,
        [b"sync"] => Line::Sync,
        _ => return None,
    })
}

impl Script {
    /// Whether a line may stand behind those before it, by the names that it declares or uses.
    fn is_named_well(&mut self, line: &Line) -> bool {
        let sets_up = matches!(line, Line::Lun { .. } | Line::Port | Line::Map { .. });
        if sets_up && self.acts {
            return false;
        }
        self.acts |= !sets_up;
        match line {
            Line::Lun { blocks, depth, pool } => self.unit.replace((*blocks, *depth, *pool)).is_none(),
            Line::Port => !std::mem::replace(&mut self.port, true),
            Line::Map { initiator } => self.port && self.unit.is_some() && self.initiators.insert(*initiator),
            Line::Command(command) => self.initiators.contains(&command.initiator),
            Line::Ask { initiator, .. } => self.initiators.contains(initiator),
            Line::Step { .. } | Line::Drain => self.unit.is_some(),
            Line::Sync => true,
        }
    }

    /// Whether every limit is kept with this line.
    fn is_within_limits(&mut self, line: &Line) -> bool {
        if let (Line::Command(command), Some((blocks, _, _))) = (line, self.unit) {
            let Some(out) = &command.out else { return false };
            self.commands += 1;
            self.data += out.len();
            self.operations += command.op.as_ref().map_or(0, |op| op.operations(out, blocks));
        }
        self.functions += matches!(line, Line::Ask { .. }) as usize;
        self.lines.len() < MOST_LINES
            && self.commands <= MOST_COMMANDS
            && self.functions <= MOST_TASKS
            && self.data <= MOST_DATA_TOGETHER
            && self.operations <= MOST_OPERATIONS
    }

    fn add(&mut self, text: &[u8]) -> Result<(), Fault> {
        let line = parse_line(text).ok_or(Fault::Form)?;
        if !self.is_named_well(&line) {
            return Err(Fault::Name);
        }
        if !self.is_within_limits(&line) {
            return Err(Fault::Limit);
        }
        self.lines.push(line);
        Ok(())
    }
}

/// The script, or the number of its first line in fault and the fault. Each line ends with a line feed.
fn parse_script(bytes: &[u8]) -> Result<Script, (usize, Fault)> {
    let mut script = Script::default();
    for (index, line) in bytes.split_inclusive(|byte| *byte == b'\n').enumerate() {
        let text = line.strip_suffix(b"\n").ok_or((index + 1, Fault::Form))?;
        script.add(text).map_err(|fault| (index + 1, fault))?;
    }
    Ok(script)
}

// Commands

/// What a command does to its blocks, one phase after another.
#[derive(Debug, Clone, Copy, PartialEq)]
enum Phase {
    Get,
    Look,
    Put,
    PutSecondHalf,
    PutSame,
    Zero,
    Compare,
}

#[derive(Debug, Clone, Copy)]
enum Op {
    TestUnitReady,
    RequestSense { descriptor: bool, allocation: usize },
    Inquiry { page: Option<u8>, allocation: usize },
    ReportLuns { select: u8, allocation: usize },
    ReadCapacity10,
    ReadCapacity16 { allocation: usize },
    /// READ, WRITE, WRITE AND VERIFY, VERIFY, COMPARE AND WRITE and WRITE SAME.
    Transfer { phases: &'static [Phase], first: u64, count: u64 },
    Unmap { list: usize },
    SynchronizeCache { first: u64, count: u64 },
    StartStopUnit { start: bool },
    ModeSelect { header: usize, list: usize },
    ModeSense { header: usize, descriptor: bool, control: u8, page: u8, allocation: usize },
    ReserveIn { action: u8, allocation: usize },
    ReserveOut { action: u8, kind: u8, list: usize },
}

/// The lines of the table of conflicts.
#[derive(Clone, Copy)]
enum Index {
    Tur,
    Inq,
    RqS,
    Cap,
    Rd,
    Wr,
    Un,
    Sy,
    MSn,
    MSl,
    Res,
    Sta,
}

/// By the earlier command and the later one: skip (K), pass (P), block (B), extent (X); a small letter is no conflict
/// where reordering is unrestricted.
const CONFLICTS: [&[u8; 12]; 12] = [
    b"PKKPPPPPPBBB", // Tur
    b"PKKPPPPPPPPP", // Inq
    b"PKKPPPPPPPPP", // RqS
    b"PKKPPPPPPPPP", // Cap
    b"PKKPPxxPPBBB", // Rd
    b"PKKPxXxbPBBB", // Wr
    b"PKKPxxxbPBBB", // Un
    b"PKKPPPPPPBBB", // Sy
    b"PKKPPPPPPBBB", // MSn
    b"BKKBBBBBBBBB", // MSl
    b"BKKBBBBBBBBB", // Res
    b"BKKBBBBBBBBB", // Sta
];

const INVALID_OPERATION: u16 = 0x2000;
const OUT_OF_RANGE: u16 = 0x2100;
const INVALID_FIELD: u16 = 0x2400;
const INVALID_LIST_FIELD: u16 = 0x2600;
const LIST_LENGTH: u16 = 0x1a00;

fn big_endian(bytes: &[u8]) -> u64 {
    bytes.iter().fold(0, |value, byte| value << 8 | *byte as u64)
}

/// What the bytes of a CDB say, or the code of the sense data that refuse them.
fn decode(cdb: &[u8]) -> Result<Op, u16> {
    use Phase::{Compare, Get, Look, Put, PutSame, PutSecondHalf};
    let size = match cdb[0] {
        0x00 | 0x03 | 0x08 | 0x0a | 0x12 | 0x15 | 0x1a | 0x1b => 6,
        0x25 | 0x28 | 0x2a | 0x2e | 0x2f | 0x35 | 0x41 | 0x42 | 0x55 | 0x5a | 0x5e | 0x5f => 10,
        0xa0 | 0xa8 | 0xaa | 0xaf => 12,
        0x88 | 0x89 | 0x8a | 0x8e | 0x8f | 0x91 | 0x93 | 0x9e => 16,
        _ => return Err(INVALID_OPERATION),
    };
    if cdb.len() != size || cdb[size - 1] & 0x04 != 0 {
        return Err(INVALID_FIELD);
    }
    let action = cdb[1] & 0x1f;
    let two = |at: usize| big_endian(&cdb[at..at + 2]) as usize;
    let four = |at: usize| big_endian(&cdb[at..at + 4]) as usize;
    let (first, count) = match (cdb[0], size) {
        (0x89, _) => (big_endian(&cdb[2..10]), cdb[13] as u64),
        (_, 6) => (big_endian(&cdb[1..4]) & 0x1f_ffff, (cdb[4] as u64 + 255) % 256 + 1),
        (_, 10) => (big_endian(&cdb[2..6]), big_endian(&cdb[7..9])),
        (_, 12) => (big_endian(&cdb[2..6]), big_endian(&cdb[6..10])),
        _ => (big_endian(&cdb[2..10]), big_endian(&cdb[10..14])),
    };
    let require = |holds: bool| if holds { Ok(()) } else { Err(INVALID_FIELD) };
    let transfer = |phases: &'static [Phase], refused_bits: u8, counts: RangeInclusive<u64>| {
        require(cdb[1] & refused_bits == 0 && counts.contains(&count))?;
        Ok(Op::Transfer { phases, first, count })
    };
    match cdb[0] {
        0x00 => Ok(Op::TestUnitReady),
        0x03 => Ok(Op::RequestSense { descriptor: cdb[1] & 1 != 0, allocation: cdb[4] as usize }),
        0x12 => {
            let page = (cdb[1] & 1 != 0).then_some(cdb[2]);
            require(page.map_or(cdb[2] == 0, |page| [0x00, 0x80, 0x83, 0xb0, 0xb2].contains(&page)))?;
            Ok(Op::Inquiry { page, allocation: two(3) })
        }
        0x08 => transfer(&[Get], 0, 1..=256),
        0x0a => transfer(&[Put], 0, 1..=256),
        0x28 | 0xa8 | 0x88 => transfer(&[Get], 0xe0, 0..=256),
        0x2a | 0xaa | 0x8a => transfer(&[Put], 0xe0, 0..=256),
        0x2e | 0x8e => transfer(&[Put, Look], 0xe6, 0..=256),
        0x2f | 0xaf | 0x8f if cdb[1] & 2 != 0 => transfer(&[Compare], 0xe4, 0..=256),
        0x2f | 0xaf | 0x8f => transfer(&[Look], 0xe4, 0..=256),
        0x89 => transfer(&[Compare, PutSecondHalf], 0xe0, 0..=128),
        0x41 | 0x93 => transfer(&[PutSame], 0xf7, 1..=256),
        0x42 => require(cdb[1] & 1 == 0).map(|()| Op::Unmap { list: two(7) }),
        0x35 | 0x91 => Ok(Op::SynchronizeCache { first, count }),
        0x25 => Ok(Op::ReadCapacity10),
        0x9e => require(action == 0x10).map(|()| Op::ReadCapacity16 { allocation: four(10) }),
        0x15 => require(cdb[1] & 1 == 0).map(|()| Op::ModeSelect { header: 4, list: cdb[4] as usize }),
        0x55 => require(cdb[1] & 1 == 0).map(|()| Op::ModeSelect { header: 8, list: two(7) }),
        0x1a | 0x5a => {
            let (control, page) = (cdb[2] >> 6, cdb[2] & 0x3f);
            require(matches!((page, cdb[3]), (0x08 | 0x0a | 0x3f, 0x00) | (0x3f, 0xff)))?;
            let (header, allocation) = if size == 6 { (4, cdb[4] as usize) } else { (8, two(7)) };
            Ok(Op::ModeSense { header, descriptor: cdb[1] & 8 == 0, control, page, allocation })
        }
        0x1b => require(cdb[4] & 0xf2 == 0).map(|()| Op::StartStopUnit { start: cdb[4] & 1 != 0 }),
        0x5e => require(action <= 3).map(|()| Op::ReserveIn { action, allocation: two(7) }),
        0x5f => {
            require(action <= 6)?;
            require(!matches!(action, 1 | 2 | 4 | 5) || matches!(cdb[2], 1 | 3 | 5 | 6 | 7 | 8))?;
            Ok(Op::ReserveOut { action, kind: cdb[2] & 0x0f, list: four(5) })
        }
        _ => {
            require(cdb[2] <= 2)?;
            Ok(Op::ReportLuns { select: cdb[2], allocation: four(6) })
        }
    }
}

/// The first bytes of data-out, as many as a CDB asks for, or as there are.
fn beginning(out: &[u8], length: usize) -> &[u8] {
    &out[..length.min(out.len())]
}

fn is_inside(first: u64, count: u64, blocks: u32) -> bool {
    first.checked_add(count).is_some_and(|end| end <= blocks as u64)
}

/// A range of blocks, its end being behind it.
#[derive(Clone, Copy, PartialEq, Eq, PartialOrd, Ord)]
struct Extent {
    first: u32,
    end: u32,
}

impl Extent {
    fn count(&self) -> u32 {
        self.end - self.first
    }
}

/// The ranges of an UNMAP's list, in its order.
fn unmapped(list: &[u8], blocks: u32) -> Result<Vec<Extent>, u16> {
    if list.is_empty() {
        return Ok(Vec::new());
    }
    if list.len() < 8 {
        return Err(LIST_LENGTH);
    }
    let (data, length) = (big_endian(&list[..2]), big_endian(&list[2..4]) as usize);
    if length > 1024 || data != length as u64 + 6 {
        return Err(INVALID_LIST_FIELD);
    }
    let descriptors = list[8..list.len().min(8 + length)].chunks_exact(16);
    let mut extents = Vec::with_capacity(descriptors.len());
    for descriptor in descriptors {
        let (first, count) = (big_endian(&descriptor[..8]), big_endian(&descriptor[8..12]));
        if !is_inside(first, count, blocks) {
            return Err(OUT_OF_RANGE);
        }
        extents.push(Extent { first: first as u32, end: (first + count) as u32 });
    }
    let sorted = sorted(&extents);
    if sorted.windows(2).any(|pair| pair[0].end > pair[1].first) {
        return Err(INVALID_LIST_FIELD);
    }
    Ok(extents)
}

/// The extents that aren't empty, in rising order.
fn sorted(extents: &[Extent]) -> Vec<Extent> {
    let mut sorted: Vec<Extent> = extents.iter().copied().filter(|extent| extent.count() > 0).collect();
    sorted.sort_unstable();
    sorted
}

/// Whether two lists of extents, each in rising order and without overlap, share a block.
fn share_a_block(some: &[Extent], others: &[Extent]) -> bool {
    let (Some(some_last), Some(others_last)) = (some.last(), others.last()) else { return false };
    if some_last.end <= others[0].first || others_last.end <= some[0].first {
        return false;
    }
    let (mut one, mut other) = (0, 0);
    while one < some.len() && other < others.len() {
        if some[one].end <= others[other].first {
            one += 1;
        } else if others[other].end <= some[one].first {
            other += 1;
        } else {
            return true;
        }
    }
    false
}

impl Op {
    fn index(&self) -> Index {
        match self {
            Op::TestUnitReady => Index::Tur,
            Op::Inquiry { .. } | Op::ReportLuns { .. } => Index::Inq,
            Op::RequestSense { .. } => Index::RqS,
            Op::ReadCapacity10 | Op::ReadCapacity16 { .. } => Index::Cap,
            Op::Transfer { .. } => if self.writes() { Index::Wr } else { Index::Rd },
            Op::Unmap { .. } => Index::Un,
            Op::SynchronizeCache { .. } => Index::Sy,
            Op::ModeSense { .. } => Index::MSn,
            Op::ModeSelect { .. } => Index::MSl,
            Op::ReserveIn { .. } | Op::ReserveOut { .. } => Index::Res,
            Op::StartStopUnit { .. } => Index::Sta,
        }
    }

    /// It puts blocks.
    fn writes(&self) -> bool {
        match self {
            Op::Transfer { phases, .. } => !matches!(phases, [Phase::Get] | [Phase::Look] | [Phase::Compare]),
            op => matches!(op, Op::Unmap { .. }),
        }
    }

    fn moves_blocks(&self) -> bool {
        matches!(self, Op::Transfer { .. } | Op::Unmap { .. })
    }

    fn needs_started(&self) -> bool {
        self.moves_blocks() || matches!(self, Op::TestUnitReady | Op::SynchronizeCache { .. })
    }

    fn reports_attention(&self) -> bool {
        !matches!(self, Op::Inquiry { .. } | Op::ReportLuns { .. } | Op::RequestSense { .. })
    }

    /// The bytes of data-out that it asks for.
    fn asked(&self) -> usize {
        use Phase::{Compare, Put, PutSame};
        match *self {
            Op::Transfer { phases: [Put, ..] | [Compare], count, .. } => BLOCK * count as usize,
            Op::Transfer { phases: [Compare, _], count, .. } => 2 * BLOCK * count as usize,
            Op::Transfer { phases: [PutSame], .. } => BLOCK,
            Op::Unmap { list } | Op::ModeSelect { list, .. } | Op::ReserveOut { list, .. } => list,
            _ => 0,
        }
    }

    /// The block operations that it asks for, whether it is refused later or not.
    fn operations(&self, out: &[u8], blocks: u32) -> u64 {
        match *self {
            Op::Transfer { phases, count, .. } => phases.len() as u64 * count,
            Op::Unmap { list } => unmapped(beginning(out, list), blocks)
                .map_or(0, |extents| extents.iter().map(|extent| extent.count() as u64).sum()),
            _ => 0,
        }
    }

    /// The blocks of the pool that it needs for so many blocks.
    fn need(&self, count: u32) -> u32 {
        use Phase::{Compare, Get, Look, Put, PutSame};
        match self {
            Op::Transfer { phases: [Get] | [Put, ..], .. } => count,
            Op::Transfer { phases: [Look], .. } | Op::Unmap { .. } => 1,
            Op::Transfer { phases: [Compare], .. } => count + 1,
            Op::Transfer { phases: [Compare, _], .. } => 2 * count + 1,
            Op::Transfer { phases: [PutSame], .. } => 2,
            _ => 0,
        }
    }
}

/// The block operations of a command, phase after phase, or the code that its data-out or its blocks are refused with.
struct Plan {
    phases: &'static [Phase],
    /// The blocks of each phase, in the order of the command.
    extents: Vec<Extent>,
    /// The same in rising order.
    footprint: Vec<Extent>,
    /// The blocks of each phase, counted.
    blocks: usize,
    need: u32,
    refusal: Option<u16>,
}

impl Plan {
    fn empty(refusal: Option<u16>) -> Plan {
        Plan { phases: &[], extents: Vec::new(), footprint: Vec::new(), blocks: 0, need: 0, refusal }
    }

    fn of(op: &Op, out: &[u8], blocks: u32) -> Plan {
        if out.len() < op.asked() {
            return Plan::empty(Some(LIST_LENGTH));
        }
        let (phases, extents): (&[Phase], _) = match *op {
            Op::Transfer { first, count, .. } | Op::SynchronizeCache { first, count }
                if !is_inside(first, count, blocks) =>
            {
                return Plan::empty(Some(OUT_OF_RANGE));
            }
            Op::Transfer { phases, first, count } => {
                (phases, vec![Extent { first: first as u32, end: (first + count) as u32 }])
            }
            Op::Unmap { list } => match unmapped(&out[..list], blocks) {
                Ok(extents) => (&[Phase::Zero], extents),
                Err(fault) => return Plan::empty(Some(fault)),
            },
            Op::ModeSelect { header, list } => return Plan::empty(mode_list(&out[..list], header).err()),
            Op::ReserveOut { list, .. } => return Plan::empty(reservation_list(&out[..list]).err()),
            _ => return Plan::empty(None),
        };
        let footprint = sorted(&extents);
        let blocks: u32 = footprint.iter().map(Extent::count).sum();
        if blocks == 0 {
            return Plan::empty(None);
        }
        Plan { phases, extents, footprint, blocks: blocks as usize, need: op.need(blocks), refusal: None }
    }

    fn operations(&self) -> usize {
        self.phases.len() * self.blocks
    }

    /// How many blocks the first so many operations put.
    fn puts(&self, done: usize) -> usize {
        let is_put = |phase: &Phase| matches!(phase, Phase::Put | Phase::PutSecondHalf | Phase::PutSame | Phase::Zero);
        let made = |at: usize| done.saturating_sub(at * self.blocks).min(self.blocks);
        self.phases.iter().enumerate().filter(|(_, phase)| is_put(phase)).map(|(at, _)| made(at)).sum()
    }

    /// The block at a place of a phase, and how many of its range there are from there on.
    fn at(&self, mut place: usize) -> (usize, usize) {
        for extent in &self.extents {
            let count = extent.count() as usize;
            if place < count {
                return (extent.first as usize + place, count - place);
            }
            place -= count;
        }
        unreachable!()
    }
}

// Mode pages

#[derive(Clone, Copy)]
struct Pages {
    descriptor_sense: bool,
    unrestricted: bool,
    write_protect: bool,
    tells_aborts: bool,
    write_cache: bool,
}

const DEFAULT_PAGES: Pages = Pages {
    descriptor_sense: false,
    unrestricted: false,
    write_protect: false,
    tells_aborts: false,
    write_cache: true,
};
const CHANGEABLE_PAGES: Pages = Pages {
    descriptor_sense: true,
    unrestricted: true,
    write_protect: true,
    tells_aborts: true,
    write_cache: true,
};

impl Pages {
    fn caching(&self) -> Vec<u8> {
        let mut page = vec![0; 20];
        page[..3].copy_from_slice(&[0x08, 0x12, (self.write_cache as u8) << 2]);
        page
    }

    fn control(&self) -> Vec<u8> {
        let mut page = vec![0; 12];
        let descriptor_sense = (self.descriptor_sense as u8) << 2;
        let modifier = (self.unrestricted as u8) << 4;
        let (write_protect, tells_aborts) = ((self.write_protect as u8) << 3, (self.tells_aborts as u8) << 6);
        page[..6].copy_from_slice(&[0x0a, 0x0a, descriptor_sense, modifier, write_protect, tells_aborts]);
        page
    }

    fn page(&self, code: u8) -> Vec<u8> {
        match code {
            0x08 => self.caching(),
            0x0a => self.control(),
            _ => [self.caching(), self.control()].concat(),
        }
    }

    /// The pages with those of a list in place of them, or None where a bit would change that can't be changed.
    fn selected(mut self, list: &[&[u8]]) -> Option<Pages> {
        let current = self;
        for page in list {
            let code = page[0] & 0x3f;
            let (old, mask) = (current.page(code), CHANGEABLE_PAGES.page(code));
            let changes_others = |at: usize| (page[at] ^ old[at]) & !mask[at] != 0;
            if (2..page.len()).any(changes_others) {
                return None;
            }
            if code == 0x08 {
                self.write_cache = page[2] & 0x04 != 0;
            } else {
                self.descriptor_sense = page[2] & 0x04 != 0;
                self.unrestricted = page[3] & 0x10 != 0;
                self.write_protect = page[4] & 0x08 != 0;
                self.tells_aborts = page[5] & 0x40 != 0;
            }
        }
        Some(self)
    }
}

/// The pages of a MODE SELECT's list, or the code of its first fault.
fn mode_list(list: &[u8], header: usize) -> Result<Vec<&[u8]>, u16> {
    let mut pages: Vec<&[u8]> = Vec::new();
    if list.is_empty() {
        return Ok(pages);
    }
    if list.len() < header {
        return Err(LIST_LENGTH);
    }
    let descriptor = if header == 4 { list[3] as u64 } else { big_endian(&list[6..8]) };
    let mut rest = &list[header..];
    match descriptor {
        0 => {}
        8 if rest.len() < 8 => return Err(LIST_LENGTH),
        8 if big_endian(&rest[5..8]) == BLOCK as u64 => rest = &rest[8..],
        _ => return Err(INVALID_LIST_FIELD),
    }
    while let Some(first) = rest.first() {
        let code = first & 0x7f;
        let size = match code {
            0x08 => 20,
            0x0a => 12,
            _ => return Err(INVALID_LIST_FIELD),
        };
        if pages.iter().any(|page| page[0] & 0x7f == code) {
            return Err(INVALID_LIST_FIELD);
        }
        if *rest.get(1).ok_or(LIST_LENGTH)? as usize != size - 2 {
            return Err(INVALID_LIST_FIELD);
        }
        if rest.len() < size {
            return Err(LIST_LENGTH);
        }
        pages.push(&rest[..size]);
        rest = &rest[size..];
    }
    Ok(pages)
}

// Persistent reservations

struct Registrant {
    initiator: u8,
    key: u64,
}

#[derive(Default)]
struct Reservations {
    generation: u32,
    registrants: Vec<Registrant>,
    /// The type of the reservation and the nexus that made it.
    held: Option<(u8, u8)>,
}

/// What an accepted PERSISTENT RESERVE OUT did to others: whom it removed, and whom it tells which code.
#[derive(Default)]
struct Reserved {
    removed: Vec<u8>,
    told: Vec<(u8, u16)>,
}

enum NotReserved {
    Conflict,
    Code(u16),
}

const RESERVATIONS_PREEMPTED: u16 = 0x2a03;
const RESERVATIONS_RELEASED: u16 = 0x2a04;
const REGISTRATIONS_PREEMPTED: u16 = 0x2a05;

/// Types whose holders are all registrants.
fn all_hold(kind: u8) -> bool {
    kind >= 7
}

fn reservation_list(list: &[u8]) -> Result<(u64, u64), u16> {
    if list.len() != 24 {
        Err(LIST_LENGTH)
    } else if list[20] != 0 {
        Err(INVALID_LIST_FIELD)
    } else {
        Ok((big_endian(&list[..8]), big_endian(&list[8..16])))
    }
}

impl Reservations {
    fn key(&self, initiator: u8) -> Option<u64> {
        self.registrants.iter().find(|one| one.initiator == initiator).map(|one| one.key)
    }

    fn holds(&self, initiator: u8) -> bool {
        self.held.is_some_and(|(kind, holder)| {
            if all_hold(kind) { self.key(initiator).is_some() } else { holder == initiator }
        })
    }

    fn others(&self, initiator: u8) -> Vec<u8> {
        self.registrants.iter().map(|one| one.initiator).filter(|other| *other != initiator).collect()
    }

    fn others_told(&self, initiator: u8, code: u16) -> Vec<(u8, u16)> {
        self.others(initiator).into_iter().map(|other| (other, code)).collect()
    }

    /// Whether a command of this nexus is let through.
    fn allows(&self, initiator: u8, op: &Op) -> bool {
        let Some((kind, _)) = self.held else { return true };
        let is_registered = self.key(initiator).is_some();
        match op {
            Op::TestUnitReady
            | Op::Inquiry { .. }
            | Op::RequestSense { .. }
            | Op::ReportLuns { .. }
            | Op::ReadCapacity10
            | Op::ReadCapacity16 { .. }
            | Op::ReserveIn { .. }
            | Op::ReserveOut { .. } => true,
            Op::ModeSense { .. } => matches!(kind, 1 | 5 | 7) || self.passes(kind, initiator, is_registered),
            Op::Transfer { .. } if !op.writes() => {
                matches!(kind, 1 | 5 | 7) || self.passes(kind, initiator, is_registered)
            }
            _ => self.passes(kind, initiator, is_registered),
        }
    }

    fn passes(&self, kind: u8, initiator: u8, is_registered: bool) -> bool {
        if matches!(kind, 1 | 3) { self.holds(initiator) } else { is_registered }
    }

    fn out(&mut self, initiator: u8, action: u8, kind: u8, keys: (u64, u64)) -> Result<Reserved, NotReserved> {
        let (key, service_key) = keys;
        let own = self.key(initiator);
        let has_own_key = own == Some(key);
        match action {
            0 if own.is_some() && !has_own_key || own.is_none() && key != 0 => Err(NotReserved::Conflict),
            0 | 6 => self.register(initiator, service_key),
            _ if !has_own_key => Err(NotReserved::Conflict),
            1 => match self.held {
                None => {
                    self.held = Some((kind, initiator));
                    Ok(Reserved::default())
                }
                Some((held, _)) if held == kind && self.holds(initiator) => Ok(Reserved::default()),
                Some(_) => Err(NotReserved::Conflict),
            },
            2 => match self.held {
                Some((held, _)) if self.holds(initiator) => {
                    if held != kind {
                        return Err(NotReserved::Code(0x2604));
                    }
                    self.held = None;
                    let told = if held >= 5 { self.others_told(initiator, RESERVATIONS_RELEASED) } else { Vec::new() };
                    Ok(Reserved { removed: Vec::new(), told })
                }
                _ => Ok(Reserved::default()),
            },
            3 => {
                let told = self.others_told(initiator, RESERVATIONS_PREEMPTED);
                self.held = None;
                self.registrants.clear();
                self.generation = self.generation.wrapping_add(1);
                Ok(Reserved { removed: Vec::new(), told })
            }
            _ => self.preempt(initiator, kind, service_key),
        }
    }

    fn register(&mut self, initiator: u8, service_key: u64) -> Result<Reserved, NotReserved> {
        let mut reserved = Reserved::default();
        match self.registrants.iter().position(|one| one.initiator == initiator) {
            None if service_key == 0 => return Ok(reserved),
            None if self.registrants.len() == MOST_REGISTRANTS => return Err(NotReserved::Code(0x5504)),
            None => self.registrants.push(Registrant { initiator, key: service_key }),
            Some(place) if service_key != 0 => self.registrants[place].key = service_key,
            Some(place) => {
                self.registrants.remove(place);
                match self.held {
                    Some((kind, _)) if all_hold(kind) => {
                        if self.registrants.is_empty() {
                            self.held = None;
                        }
                    }
                    Some((kind, holder)) if holder == initiator => {
                        self.held = None;
                        if kind >= 5 {
                            reserved.told = self.others_told(initiator, RESERVATIONS_RELEASED);
                        }
                    }
                    _ => {}
                }
            }
        }
        self.generation = self.generation.wrapping_add(1);
        Ok(reserved)
    }

    fn preempt(&mut self, initiator: u8, kind: u8, service_key: u64) -> Result<Reserved, NotReserved> {
        let takes_from_all = service_key == 0 && self.held.is_some_and(|(held, _)| all_hold(held));
        if service_key == 0 && !takes_from_all {
            return Err(NotReserved::Code(INVALID_LIST_FIELD));
        }
        let is_named = |one: &Registrant| takes_from_all || one.key == service_key;
        if !self.registrants.iter().any(is_named) {
            return Err(NotReserved::Conflict);
        }
        let names_holder = |holder: u8| self.registrants.iter().any(|one| one.initiator == holder && is_named(one));
        let takes_from_one = self.held.is_some_and(|(held, holder)| !all_hold(held) && names_holder(holder));
        let takes_over = takes_from_all || takes_from_one;
        let is_removed = |one: &Registrant| one.initiator != initiator && is_named(one);
        let removed: Vec<u8> =
            self.registrants.iter().filter(|one| is_removed(one)).map(|one| one.initiator).collect();
        self.registrants.retain(|one| !is_removed(one));
        let mut told: Vec<_> = removed.iter().map(|other| (*other, REGISTRATIONS_PREEMPTED)).collect();
        if takes_over {
            if self.held.is_some_and(|(held, _)| held != kind) {
                told.extend(self.others_told(initiator, RESERVATIONS_RELEASED));
            }
            self.held = Some((kind, initiator));
        }
        self.generation = self.generation.wrapping_add(1);
        Ok(Reserved { removed, told })
    }

    /// The data of a PERSISTENT RESERVE IN.
    fn data(&self, action: u8) -> Vec<u8> {
        let mut list = Vec::new();
        match action {
            0 => self.registrants.iter().for_each(|one| list.extend(one.key.to_be_bytes())),
            1 => {
                if let Some((kind, holder)) = self.held {
                    let key = if all_hold(kind) { 0 } else { self.key(holder).unwrap_or(0) };
                    list.extend(key.to_be_bytes());
                    list.extend([0, 0, 0, 0, 0, kind, 0, 0]);
                }
            }
            2 => return vec![0x00, 0x08, 0x00, 0x80, 0xea, 0x01, 0x00, 0x00],
            _ => {
                for one in &self.registrants {
                    let mut status = [0; 48];
                    status[..8].copy_from_slice(&one.key.to_be_bytes());
                    if let Some((kind, _)) = self.held.filter(|_| self.holds(one.initiator)) {
                        (status[12], status[13]) = (1, kind);
                    }
                    (status[19], status[23], status[24], status[35]) = (1, 0x18, 0x0f, one.initiator);
                    list.extend(status);
                }
            }
        }
        [&self.generation.to_be_bytes()[..], &(list.len() as u32).to_be_bytes()[..], &list[..]].concat()
    }
}

// Data of the unit

const SERIAL: &[u8] = b"CTL-LUN-00000000";
const STANDARD: &[u8] = b"\x00\x00\x06\x12\x1f\x00\x00\x02FREEBSD CTLDISK         0001";

fn inquiry_data(page: Option<u8>) -> Vec<u8> {
    let Some(code) = page else { return STANDARD.to_vec() };
    let rest = match code {
        0x00 => vec![0x00, 0x80, 0x83, 0xb0, 0xb2],
        0x80 => SERIAL.to_vec(),
        0x83 => [b"\x02\x01\x00\x18FREEBSD ", SERIAL].concat(),
        0xb0 => {
            let mut limits = vec![0; 60];
            (limits[0], limits[1]) = (1, 128);
            limits[4..8].copy_from_slice(&256u32.to_be_bytes());
            limits[16..20].copy_from_slice(&65_536u32.to_be_bytes());
            limits[20..24].copy_from_slice(&64u32.to_be_bytes());
            limits[32..40].copy_from_slice(&256u64.to_be_bytes());
            limits
        }
        _ => vec![0x00, 0xc4, 0x02, 0x00],
    };
    [&[0, code, 0, rest.len() as u8], &rest[..]].concat()
}

fn cut_to(mut data: Vec<u8>, allocation: usize) -> Vec<u8> {
    data.truncate(allocation);
    data
}

// The unit

#[derive(Clone, Copy)]
struct Sense {
    key: u8,
    code: u16,
    information: Option<u32>,
}

impl Sense {
    fn bytes(&self, descriptor: bool) -> Vec<u8> {
        let (code, qualifier) = ((self.code >> 8) as u8, self.code as u8);
        if descriptor {
            let mut bytes = vec![0x72, self.key, code, qualifier, 0, 0, 0, 0];
            if let Some(information) = self.information {
                bytes[7] = 12;
                bytes.extend([0x00, 0x0a, 0x80, 0x00, 0, 0, 0, 0]);
                bytes.extend(information.to_be_bytes());
            }
            bytes
        } else {
            let mut bytes = vec![0; 18];
            bytes[0] = if self.information.is_some() { 0xf0 } else { 0x70 };
            bytes[2] = self.key;
            bytes[3..7].copy_from_slice(&self.information.unwrap_or(0).to_be_bytes());
            bytes[7] = 10;
            (bytes[12], bytes[13]) = (code, qualifier);
            bytes
        }
    }
}

enum Answer {
    Good(Vec<u8>),
    Check(Sense),
    Busy,
    Conflict,
    Full,
}

fn check(key: u8, code: u16) -> Answer {
    Answer::Check(Sense { key, code, information: None })
}

/// A command in the task set.
struct Task {
    number: u32,
    initiator: u8,
    tag: u32,
    attribute: Attribute,
    index: Index,
    op: Result<Op, u16>,
    out: Vec<u8>,
    plan: Plan,
    has_begun: bool,
    /// The number of one that it waits for. One that hasn't begun and waits for none is ready.
    waits_for: Option<u32>,
    done: usize,
    got: Vec<u8>,
}

/// The codes of unit attention conditions, in the order in which they are told.
const ATTENTIONS: [u16; 9] = [RESET, POWER_ON, NEXUS_LOSS, MODE_CHANGED, 0x2a03, 0x2a04, 0x2a05, 0x2a06, CLEARED];
const RESET: u16 = 0x2900;
const POWER_ON: u16 = 0x2901;
const NEXUS_LOSS: u16 = 0x2907;
const MODE_CHANGED: u16 = 0x2a01;
const CLEARED: u16 = 0x2f00;

struct Unit {
    disk: Vec<[u8; BLOCK]>,
    depth: usize,
    free: u32,
    /// In queue order.
    queue: Vec<Box<Task>>,
    arrived: u32,
    visible: Vec<bool>,
    attentions: [[bool; ATTENTIONS.len()]; INITIATORS],
    pages: Pages,
    is_started: bool,
    reservations: Reservations,
    report: Vec<u8>,
}

impl Task {
    fn is_ready(&self) -> bool {
        !self.has_begun && self.waits_for.is_none()
    }

    /// Whether it makes a waiting command wait.
    fn holds_up(&self, waiting: &Task, is_ahead: bool, is_unrestricted: bool) -> bool {
        let cell = CONFLICTS[self.index as usize][waiting.index as usize];
        if cell == b'K' {
            return false;
        }
        if waiting.attribute == Attribute::Head || !is_ahead {
            return self.has_begun && self.conflicts(waiting, cell, is_unrestricted);
        }
        waiting.attribute == Attribute::Ordered
            || self.attribute != Attribute::Simple
            || self.conflicts(waiting, cell, is_unrestricted)
    }

    fn conflicts(&self, other: &Task, cell: u8, is_unrestricted: bool) -> bool {
        match cell {
            b'B' => true,
            b'b' => !is_unrestricted,
            b'X' => share_a_block(&self.plan.footprint, &other.plan.footprint),
            b'x' => !is_unrestricted && share_a_block(&self.plan.footprint, &other.plan.footprint),
            _ => false,
        }
    }

    /// Moves on by at most so many blocks: by how many, and the offset of the first byte of data-out that differs.
    fn move_on(&mut self, disk: &mut [[u8; BLOCK]], most: usize) -> (usize, Option<usize>) {
        let (blocks, out) = (self.plan.blocks, &self.out);
        let begun_at = self.done;
        let end = self.plan.operations().min(begun_at + most);
        while self.done < end {
            let place = self.done % blocks;
            let (first, left) = self.plan.at(place);
            let count = left.min(end - self.done);
            let here = &mut disk[first..first + count];
            match self.plan.phases[self.done / blocks] {
                Phase::Get => self.got.extend_from_slice(here.as_flattened()),
                Phase::Look => {}
                Phase::Put => here.as_flattened_mut().copy_from_slice(&out[BLOCK * place..][..BLOCK * count]),
                Phase::PutSecondHalf => {
                    here.as_flattened_mut().copy_from_slice(&out[BLOCK * (blocks + place)..][..BLOCK * count]);
                }
                Phase::PutSame => here.iter_mut().for_each(|block| block.copy_from_slice(&out[..BLOCK])),
                Phase::Zero => here.fill([0; BLOCK]),
                Phase::Compare => {
                    let bytes = here.as_flattened().iter().zip(&out[BLOCK * place..]);
                    if let Some(at) = bytes.map(|(a, b)| a == b).position(|same| !same) {
                        self.done += at / BLOCK + 1;
                        return (self.done - begun_at, Some(BLOCK * place + at));
                    }
                }
            }
            self.done += count;
        }
        (self.done - begun_at, None)
    }
}

impl Unit {
    fn open(blocks: u32, depth: usize, pool: u32, visible: &HashSet<u8>) -> Unit {
        let mut attentions = [[false; ATTENTIONS.len()]; INITIATORS];
        let power_on = ATTENTIONS.iter().position(|code| *code == POWER_ON).unwrap();
        attentions.iter_mut().for_each(|codes| codes[power_on] = true);
        Unit {
            disk: vec![[0; BLOCK]; blocks as usize],
            depth,
            free: pool,
            queue: Vec::with_capacity(depth),
            arrived: 0,
            visible: (0..INITIATORS as u8).map(|initiator| visible.contains(&initiator)).collect(),
            attentions,
            pages: DEFAULT_PAGES,
            is_started: true,
            reservations: Reservations::default(),
            report: b"report 1\nlun 0\n".to_vec(),
        }
    }

    fn raise(&mut self, initiator: u8, code: u16) {
        let place = ATTENTIONS.iter().position(|kept| *kept == code).unwrap();
        self.attentions[initiator as usize][place] = true;
    }

    fn take_attention(&mut self, initiator: u8) -> Option<u16> {
        let codes = &mut self.attentions[initiator as usize];
        let place = codes.iter().position(|stands| *stands)?;
        codes[place] = false;
        Some(ATTENTIONS[place])
    }

    fn arrive(&mut self, line: usize, command: Command) {
        self.arrived += 1;
        let number = self.arrived;
        writeln!(self.report, "came {number} a {line}").unwrap();
        let Command { initiator, tag, attribute, op, out } = command;
        let out = out.unwrap_or_default();
        let is_live = self.queue.iter().any(|task| task.initiator == initiator && task.tag == tag);
        if is_live || self.queue.len() == self.depth {
            let answer = if is_live { check(0x0b, 0x4e00) } else { Answer::Full };
            return self.answer("turned", number, answer);
        }
        let blocks = self.disk.len() as u32;
        let plan = op.as_ref().map_or_else(|_| Plan::empty(None), |op| Plan::of(op, &out, blocks));
        if self.free < plan.need {
            return self.answer("turned", number, Answer::Busy);
        }
        self.free -= plan.need;
        writeln!(self.report, "in {number}").unwrap();
        let index = op.as_ref().map_or(Index::Inq, Op::index);
        self.enter(Box::new(Task {
            number,
            initiator,
            tag,
            attribute,
            index,
            op,
            out,
            plan,
            has_begun: false,
            waits_for: None,
            done: 0,
            got: Vec::new(),
        }));
    }

    fn enter(&mut self, task: Box<Task>) {
        let number = task.number;
        let is_head = task.attribute == Attribute::Head;
        let first_waiting = self.queue.iter().position(|task| !task.has_begun);
        let place = first_waiting.filter(|_| is_head).unwrap_or(self.queue.len());
        self.queue.insert(place, task);
        self.find_blocker(place);
        for behind in place + 1..self.queue.len() {
            let waiting = &self.queue[behind];
            if waiting.is_ready() && self.queue[place].holds_up(waiting, true, self.pages.unrestricted) {
                self.queue[behind].waits_for = Some(number);
            }
        }
    }

    /// Finds the first command that one waits for, if there is one.
    fn find_blocker(&mut self, place: usize) {
        let waiting = &self.queue[place];
        let holds_up = |other: usize| {
            other != place && self.queue[other].holds_up(waiting, other < place, self.pages.unrestricted)
        };
        let blocker = (0..self.queue.len()).find(|other| holds_up(*other));
        self.queue[place].waits_for = blocker.map(|other| self.queue[other].number);
    }

    fn step(&mut self, number: u32, blocks: usize) {
        let place = self.queue.iter().position(|task| task.number == number);
        if let Some(place) = place.filter(|place| self.queue[*place].has_begun || self.queue[*place].is_ready()) {
            self.move_task(place, blocks);
        }
    }

    fn drain(&mut self) {
        while let Some(place) = self.next() {
            self.move_task(place, MOST_STEP as usize);
        }
    }

    /// The first command that is ready, or else the first that has begun.
    fn next(&self) -> Option<usize> {
        let ready = self.queue.iter().position(|task| task.is_ready());
        ready.or_else(|| self.queue.iter().position(|task| task.has_begun))
    }

    fn move_task(&mut self, place: usize, blocks: usize) {
        let mut begins = false;
        if !self.queue[place].has_begun {
            if let Some(refusal) = self.refusal(place) {
                return self.end(place, refusal);
            }
            if self.queue[place].plan.operations() == 0 {
                return self.perform(place);
            }
            let task = &mut self.queue[place];
            task.has_begun = true;
            begins = true;
            writeln!(self.report, "begun {}", task.number).unwrap();
        }
        let task = &mut self.queue[place];
        let (count, difference) = task.move_on(&mut self.disk, blocks);
        let is_done = task.done == task.plan.operations();
        writeln!(self.report, "moved {} {count}", task.number).unwrap();
        if let Some(offset) = difference {
            let sense = Sense { key: 0x0e, code: 0x1d00, information: Some(offset as u32) };
            self.end(place, Answer::Check(sense));
        } else if is_done {
            let got = std::mem::take(&mut self.queue[place].got);
            self.end(place, Answer::Good(got));
        } else if begins {
            self.hold_up_others(place);
        }
    }

    /// Has those wait that were ready beside a command before it began: what is ahead of it, or HEAD OF QUEUE.
    fn hold_up_others(&mut self, place: usize) {
        let number = self.queue[place].number;
        for other in 0..self.queue.len() {
            let waiting = &self.queue[other];
            if waiting.is_ready()
                && (other < place || waiting.attribute == Attribute::Head)
                && self.queue[place].holds_up(waiting, place < other, self.pages.unrestricted)
            {
                self.queue[other].waits_for = Some(number);
            }
        }
    }

    /// Takes a command out of the queue, and answers it.
    fn end(&mut self, place: usize, answer: Answer) {
        let task = self.queue.remove(place);
        self.free += task.plan.need;
        self.answer("ended", task.number, answer);
        for other in 0..self.queue.len() {
            if self.queue[other].waits_for == Some(task.number) {
                self.find_blocker(other);
            }
        }
    }

    /// The first refusal of a command that would begin; an attention that is told is gone.
    fn refusal(&mut self, place: usize) -> Option<Answer> {
        let initiator = self.queue[place].initiator;
        let op = match self.queue[place].op {
            Err(code) => return Some(check(5, code)),
            Ok(op) => op,
        };
        if op.reports_attention() {
            if let Some(code) = self.take_attention(initiator) {
                return Some(check(6, code));
            }
        }
        let plan = &self.queue[place].plan;
        if !self.reservations.allows(initiator, &op) {
            Some(Answer::Conflict)
        } else if op.needs_started() && !self.is_started {
            Some(check(2, 0x0402))
        } else if matches!(op, Op::ModeSense { control: 3, .. }) {
            Some(check(5, 0x3900))
        } else if let Some(code) = plan.refusal {
            Some(check(5, code))
        } else if op.writes() && self.pages.write_protect {
            Some(check(7, 0x2700))
        } else {
            None
        }
    }

    /// Does at once what a command does that moves no blocks.
    fn perform(&mut self, place: usize) {
        let task = &self.queue[place];
        let (initiator, Ok(op)) = (task.initiator, task.op) else { return };
        let data = match op {
            Op::RequestSense { descriptor, allocation } => {
                let attention = self.take_attention(initiator);
                let (key, code) = attention.map_or((0, 0), |code| (6, code));
                cut_to(Sense { key, code, information: None }.bytes(descriptor), allocation)
            }
            Op::Inquiry { page, allocation } => cut_to(inquiry_data(page), allocation),
            Op::ReportLuns { select, allocation } => {
                let count = (select != 1 && self.visible[initiator as usize]) as u8;
                let mut data = vec![0, 0, 0, 8 * count, 0, 0, 0, 0];
                data.resize(8 + 8 * count as usize, 0);
                cut_to(data, allocation)
            }
            Op::ReadCapacity10 => [self.disk.len() as u32 - 1, BLOCK as u32].map(u32::to_be_bytes).concat(),
            Op::ReadCapacity16 { allocation } => {
                let mut data = vec![0; 32];
                data[..8].copy_from_slice(&(self.disk.len() as u64 - 1).to_be_bytes());
                data[8..12].copy_from_slice(&(BLOCK as u32).to_be_bytes());
                data[14] = 0xc0;
                cut_to(data, allocation)
            }
            Op::ModeSense { header, descriptor, control, page, allocation } => {
                cut_to(self.mode_data(header, descriptor, control, page), allocation)
            }
            Op::ReserveIn { action, allocation } => cut_to(self.reservations.data(action), allocation),
            Op::StartStopUnit { start } => {
                self.is_started = start;
                Vec::new()
            }
            Op::ModeSelect { header, list } => return self.select_mode(place, header, list),
            Op::ReserveOut { action, kind, list } => return self.reserve(place, action, kind, list),
            _ => Vec::new(),
        };
        self.end(place, Answer::Good(data));
    }

    fn mode_data(&self, header: usize, descriptor: bool, control: u8, page: u8) -> Vec<u8> {
        let mut rest = Vec::new();
        if descriptor {
            rest.extend((self.disk.len() as u32).to_be_bytes());
            rest.extend((BLOCK as u32).to_be_bytes());
        }
        let length = rest.len() as u8;
        let pages = [self.pages, CHANGEABLE_PAGES, DEFAULT_PAGES][control as usize];
        rest.extend(pages.page(page));
        let device = 0x10 | (self.pages.write_protect as u8) << 7;
        let head = match header {
            4 => vec![rest.len() as u8 + 3, 0, device, length],
            _ => vec![0, rest.len() as u8 + 6, 0, device, 0, 0, 0, length],
        };
        [head, rest].concat()
    }

    fn select_mode(&mut self, place: usize, header: usize, list: usize) {
        let task = &self.queue[place];
        let initiator = task.initiator;
        let list = mode_list(&task.out[..list], header).unwrap_or_default();
        let Some(pages) = self.pages.selected(&list) else {
            return self.end(place, check(5, INVALID_LIST_FIELD));
        };
        let has_page = !list.is_empty();
        let reorders = pages.unrestricted != self.pages.unrestricted;
        self.pages = pages;
        if has_page {
            let others = (0..INITIATORS as u8).filter(|other| *other != initiator);
            others.for_each(|other| self.raise(other, MODE_CHANGED));
        }
        self.end(place, Answer::Good(Vec::new()));
        if reorders {
            self.find_blockers();
        }
    }

    fn find_blockers(&mut self) {
        for place in 0..self.queue.len() {
            if !self.queue[place].has_begun {
                self.find_blocker(place);
            }
        }
    }

    fn reserve(&mut self, place: usize, action: u8, kind: u8, list: usize) {
        let task = &self.queue[place];
        let (initiator, number) = (task.initiator, task.number);
        let keys = reservation_list(&task.out[..list]).unwrap_or_default();
        match self.reservations.out(initiator, action, kind, keys) {
            Err(NotReserved::Conflict) => self.end(place, Answer::Conflict),
            Err(NotReserved::Code(code)) => self.end(place, check(5, code)),
            Ok(reserved) => {
                reserved.told.iter().for_each(|(other, code)| self.raise(*other, *code));
                self.end(place, Answer::Good(Vec::new()));
                if action == 5 {
                    self.abort(number, &reserved.removed);
                }
            }
        }
    }

    /// Cuts the waiting commands of nexuses that a PREEMPT AND ABORT removed.
    fn abort(&mut self, by: u32, removed: &[u8]) {
        let manner = if self.pages.tells_aborts { "told" } else { "silent" };
        let is_cut = |task: &Task| !task.has_begun && removed.contains(&task.initiator);
        for task in self.queue.iter().filter(|task| is_cut(task)) {
            writeln!(self.report, "cut {} 0 by {by} {manner}", task.number).unwrap();
            self.free += task.plan.need;
        }
        self.queue.retain(|task| !is_cut(task));
        self.find_blockers();
        if !self.pages.tells_aborts {
            removed.iter().for_each(|other| self.raise(*other, CLEARED));
        }
    }

    /// A function comes, cuts what it hits and is answered.
    fn ask(&mut self, line: usize, initiator: u8, function: Function) {
        self.arrived += 1;
        let number = self.arrived;
        writeln!(self.report, "came {number} a {line}\nasked {number}").unwrap();
        let is_hit = |task: &Task| match function {
            Function::AbortTask(tag) => task.initiator == initiator && task.tag == tag,
            Function::AbortTaskSet | Function::NexusReset => task.initiator == initiator,
            Function::ClearTaskSet | Function::LunReset => true,
            Function::QueryTask(_) | Function::QueryTaskSet | Function::ClearAca => false,
        };
        let mut others = HashSet::new();
        for task in self.queue.iter().filter(|task| is_hit(task)) {
            let is_told = self.pages.tells_aborts && task.initiator != initiator;
            let manner = if is_told { "told" } else { "silent" };
            let puts = task.plan.puts(task.done);
            writeln!(self.report, "cut {} {puts} by {number} {manner}", task.number).unwrap();
            self.free += task.plan.need;
            if task.initiator != initiator {
                others.insert(task.initiator);
            }
        }
        self.queue.retain(|task| !is_hit(task));
        self.close(initiator, function, &others);
        self.find_blockers();
        let is_found = self.queue.iter().any(|task| match function {
            Function::QueryTask(tag) => task.initiator == initiator && task.tag == tag,
            Function::QueryTaskSet => task.initiator == initiator,
            _ => false,
        });
        let outcome = if is_found { "SUCCEEDED" } else { "COMPLETE" };
        writeln!(self.report, "closed {number} FUNCTION {outcome}").unwrap();
    }

    /// What a function changes that cut commands of these other initiators.
    fn close(&mut self, initiator: u8, function: Function, others: &HashSet<u8>) {
        match function {
            Function::ClearTaskSet if !self.pages.tells_aborts => {
                others.iter().for_each(|other| self.raise(*other, CLEARED));
            }
            Function::LunReset => {
                (0..INITIATORS as u8).for_each(|other| self.raise(other, RESET));
                self.pages = DEFAULT_PAGES;
                self.is_started = true;
            }
            Function::NexusReset => self.raise(initiator, NEXUS_LOSS),
            _ => {}
        }
    }

    fn answer(&mut self, event: &str, number: u32, answer: Answer) {
        write!(self.report, "{event} {number} ").unwrap();
        match answer {
            Answer::Good(data) => {
                self.report.extend_from_slice(b"GOOD");
                if !data.is_empty() {
                    self.report.extend_from_slice(b" data ");
                    push_bytes(&mut self.report, &data);
                }
            }
            Answer::Check(sense) => {
                self.report.extend_from_slice(b"CHECK CONDITION sense ");
                for byte in sense.bytes(self.pages.descriptor_sense) {
                    write!(self.report, "{byte:02x}").unwrap();
                }
            }
            Answer::Busy => self.report.extend_from_slice(b"BUSY"),
            Answer::Conflict => self.report.extend_from_slice(b"RESERVATION CONFLICT"),
            Answer::Full => self.report.extend_from_slice(b"TASK SET FULL"),
        }
        self.report.push(b'\n');
    }
}

// The report

const HEXADECIMAL: &[u8; 16] = b"0123456789abcdef";

/// Bytes as a byte text: runs of equal ones with dots between them.
fn push_bytes(report: &mut Vec<u8>, bytes: &[u8]) {
    let mut at = 0;
    while at < bytes.len() {
        let byte = bytes[at];
        let run = 1 + bytes[at + 1..].iter().take_while(|next| **next == byte).count();
        let (high, low) = (HEXADECIMAL[(byte >> 4) as usize], HEXADECIMAL[(byte & 15) as usize]);
        if at > 0 {
            report.extend_from_slice(&[b'.', high, low]);
        } else {
            report.extend_from_slice(&[high, low]);
        }
        if run > 1 {
            write!(report, "*{run}").unwrap();
        }
        at += run;
    }
}

fn push_disk(report: &mut Vec<u8>, disk: &[[u8; BLOCK]]) {
    let mut first = 0;
    while first < disk.len() {
        let run = disk[first..].iter().take_while(|block| **block == disk[first]).count();
        if disk[first].iter().any(|byte| *byte != 0) {
            write!(report, "disk {first} {} ", first + run - 1).unwrap();
            push_bytes(report, &disk[first]);
            report.push(b'\n');
        }
        first += run;
    }
}

fn play(script: Script) -> Vec<u8> {
    let Some((blocks, depth, pool)) = script.unit else { return b"report 1\ndone\n".to_vec() };
    let mut unit = Unit::open(blocks, depth, pool, &script.initiators);
    for (index, line) in script.lines.into_iter().enumerate() {
        match line {
            Line::Lun { .. } | Line::Port | Line::Map { .. } => {}
            Line::Command(command) => unit.arrive(index + 1, *command),
            Line::Ask { initiator, function } => unit.ask(index + 1, initiator, function),
            Line::Step { number, blocks } => unit.step(number, blocks as usize),
            Line::Drain | Line::Sync => unit.drain(),
        }
    }
    unit.drain();
    push_disk(&mut unit.report, &unit.disk);
    unit.report.extend_from_slice(b"done\n");
    unit.report
}

fn fail(status: i32, reason: &str) -> ! {
    eprintln!("ctltarget: {reason}");
    std::process::exit(status)
}

fn main() {
    let mut bytes = Vec::new();
    if std::io::stdin().lock().take(MOST_SCRIPT + 1).read_to_end(&mut bytes).is_err() {
        fail(4, "read fault");
    }
    if bytes.len() as u64 > MOST_SCRIPT {
        fail(3, "script too long");
    }
    let script = parse_script(&bytes).unwrap_or_else(|(line, fault)| {
        fail(3, &format!("script line {line}: {}", format!("{fault:?}").to_lowercase()))
    });
    drop(bytes);
    if std::io::stdout().write_all(&play(script)).is_err() {
        fail(5, "write fault");
    }
}
