//! A command of a script for the program replay, as docs/REPLAY.md describes it.

/// What a command has after its opcode and its table.
#[derive(Clone, Copy)]
pub struct Shape {
    pub arena: bool,
    pub buffer: bool,
    pub numbers: usize,
    pub strings: usize,
}

#[derive(Clone, PartialEq)]
pub struct Command {
    pub op: u8,
    pub table: u8,
    /// How many bytes of the arena are lent.
    pub arena: u64,
    /// The output buffer's length, and what fills it.
    pub room: u64,
    pub fill: u8,
    pub numbers: Vec<u64>,
    pub strings: Vec<Vec<u8>>,
}

macro_rules! opcodes {
    ($($name:ident $number:literal: $arena:literal $buffer:literal $numbers:literal $strings:literal;)*) => {
        pub mod op { $(pub const $name: u8 = $number;)* }
        pub fn shape(op: u8) -> Option<Shape> {
            match op {
                $($number => Some(Shape { arena: $arena == 1, buffer: $buffer == 1, numbers: $numbers, strings: $strings }),)*
                _ => None,
            }
        }
    };
}

// name, opcode: arena, buffer, numbers, strings
opcodes! {
    FRESH 0: 0 0 0 0;
    SET_CAPACITY 1: 0 0 1 0;
    SET_MAX_BLOCKED 2: 0 0 1 0;
    PUT 3: 1 0 0 2;
    BEGIN 4: 0 0 1 0;
    FIND 5: 1 0 0 2;
    INSERT 6: 1 0 0 2;
    COMMIT 7: 0 0 1 0;
    ABANDON 8: 0 0 0 0;
    ACKNOWLEDGE 9: 0 0 1 0;
    CANCEL 10: 0 0 1 0;
    INCREMENT 11: 0 0 1 0;
    ON_ENCODER_RECV 13: 1 1 0 1;
    ON_DECODER_RECV 14: 0 0 0 1;
    SHOW 15: 0 0 0 0;
    SET 16: 0 0 3 0;
    COPY 19: 0 0 1 0;
    READ_PREFIX 24: 0 0 3 1;
    INT_READ 26: 0 0 2 1;
    INT_SIZE 27: 0 0 2 0;
    INT_WRITE 29: 0 1 4 0;
    TEXT_READ 30: 0 0 2 1;
    TEXT_WRITE 32: 0 1 3 1;
    STATIC_GET 33: 0 0 1 0;
    STATIC_FIND 34: 0 0 0 2;
    STATIC_FIND_NAME 35: 0 0 0 1;
    STATIC_COPY 36: 0 1 3 0;
    VAS_RELATIVE 37: 0 0 3 0;
    VAS_RELATIVE_BASE 38: 0 0 4 0;
    VAS_POST_BASE 39: 0 0 4 0;
    VAS_INDEX 40: 0 0 3 0;
    VAS_LARGEST_REF 41: 0 0 2 0;
    STREAM_READ_INTEGER 42: 0 0 2 1;
    STREAM_READ_NAME_REF 43: 0 0 1 1;
    STREAM_READ_LITERAL 44: 0 0 1 1;
    STREAM_WRITE_INTEGER 45: 0 1 3 0;
    STREAM_WRITE_NAME_REF 46: 0 1 3 1;
    STREAM_WRITE_LITERAL 47: 0 1 1 2;
    BLOCK_READ_LINE 48: 0 0 1 1;
    BLOCK_WRITE_INDEXED 49: 0 1 3 0;
    BLOCK_WRITE_NAMED 50: 0 1 3 1;
    BLOCK_WRITE_LITERAL 51: 0 1 1 2;
    ENCODER_KIND 52: 0 0 1 0;
    DECODER_KIND 53: 0 0 1 0;
    LINE_KIND 54: 0 0 1 0;
    SECTION_ON 58: 1 1 1 1;
    SECTION_STATELESS 59: 0 1 2 1;
    DECODE_HEADER 92: 1 1 1 1;
    DECODE_STATELESS 93: 0 1 2 1;
}

/// A section on a table, its records as numbers or as structs.
pub fn is_section_on(o: u8) -> bool {
    matches!(o, op::SECTION_ON | op::DECODE_HEADER)
}

/// A section with no table.
pub fn is_stateless(o: u8) -> bool {
    matches!(o, op::SECTION_STATELESS | op::DECODE_STATELESS)
}

/// How many bytes of an arena are lent where nothing else is tried: what the specification asks for.
pub const WHOLE_ARENA: u64 = 16_384;

impl Command {
    pub fn new(op: u8, table: u8, numbers: &[u64], strings: &[&[u8]]) -> Command {
        Command {
            op,
            table,
            arena: WHOLE_ARENA,
            room: 0,
            fill: 0,
            numbers: numbers.to_vec(),
            strings: strings.iter().map(|s| s.to_vec()).collect(),
        }
    }

    pub fn buffer(mut self, room: u64, fill: u8) -> Command {
        self.room = room;
        self.fill = fill;
        self
    }

    pub fn lend(mut self, arena: u64) -> Command {
        self.arena = arena;
        self
    }

    pub fn write(&self, out: &mut Vec<u8>) {
        let shape = shape(self.op).expect("an opcode of the list");
        out.extend([self.op, self.table]);
        let mut number = |n: u64| out.extend(n.to_le_bytes());
        if shape.arena {
            number(self.arena);
        }
        if shape.buffer {
            number(self.room);
            number(self.fill as u64);
        }
        assert_eq!(self.numbers.len(), shape.numbers);
        self.numbers.iter().for_each(|n| number(*n));
        assert_eq!(self.strings.len(), shape.strings);
        for s in &self.strings {
            out.extend((s.len() as u64).to_le_bytes());
            out.extend(s);
        }
    }

    /// The command at the front of a script, and the rest.
    pub fn read(script: &[u8]) -> Result<(Command, &[u8]), String> {
        let (head, mut rest) = script.split_at_checked(2).ok_or("the script ends inside a command")?;
        let shape = shape(head[0]).ok_or(format!("the oracle has no call for opcode {}", head[0]))?;
        let mut number = || -> Result<u64, String> {
            let (n, after) = rest.split_at_checked(8).ok_or("the script ends inside a command")?;
            rest = after;
            Ok(u64::from_le_bytes(n.try_into().unwrap()))
        };
        let arena = if shape.arena { number()? } else { 0 };
        let (room, fill) = if shape.buffer { (number()?, number()?) } else { (0, 0) };
        let numbers = (0..shape.numbers).map(|_| number()).collect::<Result<Vec<u64>, String>>()?;
        let mut strings = Vec::new();
        for _ in 0..shape.strings {
            let (n, after) = rest.split_at_checked(8).ok_or("the script ends inside a command")?;
            let len = u64::from_le_bytes(n.try_into().unwrap()) as usize;
            let (s, after) = after.split_at_checked(len).ok_or("the script ends inside a command")?;
            strings.push(s.to_vec());
            rest = after;
        }
        Ok((Command { op: head[0], table: head[1], arena, room, fill: fill as u8, numbers, strings }, rest))
    }
}
