//! Scripts of control messages: items `R` (read) and `P` (write), `r` and `p` (the same in
//! the counter profile), and those of [`chunk`].

use std::io;

use super::chunk::{self, Chunks, Outcome};
use super::print::{push_hex, push_record};
use super::{take_item, End, Item};
use crate::ids::{NotifyIconId, WindowId};
use crate::pdu::setting::{self, Area, Body, Contrast, Form};
use crate::pdu::{self, counter, order_type, Record};
use crate::pdu::{
    Activate, ApplicationIdResponse, ClientInformation, Execute, ExecuteResult, GetApplicationId,
    Handshake, HandshakeEx, MinMaxInfo, MoveSize, NotifyEvent, SystemCommand, SystemMenu,
    SystemParameters, WindowMove,
};

/// The kinds of items.
pub const KINDS: &[u8] = b"RPrpKETX";

/// The line of an item without a listed form.
const BAD_ITEM: &[u8] = b"bad item\n";

/// The most output memory that an item can ask for.
pub const MEMORY_LIMIT: usize = 17_408;

/// What every byte of the output memory holds before a call.
const FILL: u8 = 0xEE;

/// A function that writes a record, as [`pdu::write`] does.
pub type WriteFn = fn(&Record<'_>, &mut [u8]) -> Result<usize, u8>;

/// The functions that write the records of items `P` and `p`.
#[derive(Clone, Copy, Debug)]
pub struct Writers {
    /// By the plain rules.
    pub plain: WriteFn,
    /// In the counter profile.
    pub counter: WriteFn,
}

/// Those of this program.
const OWN: Writers = Writers {
    plain: pdu::write,
    counter: counter::write,
};

/// What an item comes to.
#[derive(Debug, PartialEq, Eq)]
pub enum Answer<'a> {
    /// A read: its record or refusal.
    Read(Result<Record<'a>, u8>),
    /// A write: the bytes written or its refusal.
    Written(Result<&'a [u8], u8>),
    /// The item has no listed form.
    BadItem,
    /// A write changed memory that it must leave alone.
    MemoryChanged,
}

/// Runs a script and prints one line for each item.
pub fn run(script: &[u8], out: &mut (impl io::Write + ?Sized)) -> io::Result<End> {
    run_with(OWN, script, out)
}

/// As [`run`], with the writing functions given.
pub fn run_with(
    write: Writers,
    script: &[u8],
    out: &mut (impl io::Write + ?Sized),
) -> io::Result<End> {
    let mut memory = vec![0; MEMORY_LIMIT];
    let mut chunks = Chunks::default();
    let mut line = Vec::new();
    let mut rest = script;
    while !rest.is_empty() {
        line.clear();
        let Some((item, tail)) = take_item(rest) else {
            out.write_all(BAD_ITEM)?;
            break;
        };
        let ends = match chunk::call(item).map(|call| chunks.make(call)) {
            Some(Outcome::Unknown) => return Ok(End::Fault),
            Some(outcome) => {
                push_outcome(&mut line, item.kind, &outcome);
                false
            }
            None => {
                let answer = answer_with(write, item, &mut memory);
                push_answer(&mut line, item.kind, &answer)
            }
        };
        out.write_all(&line)?;
        if ends {
            break;
        }
        rest = tail;
    }
    Ok(End::Done)
}

/// Adds the line of a call on chunks, if it has one.
pub fn push_outcome(line: &mut Vec<u8>, kind: u8, outcome: &Outcome) {
    match outcome {
        Outcome::Message(message) => push_read(line, kind, &pdu::read(message)),
        Outcome::Number(number) => push_number(line, kind, *number),
        Outcome::Silent | Outcome::Unknown => return,
    }
    line.push(b'\n');
}

/// Adds what reading a message comes to, after the kind of its item.
fn push_read(line: &mut Vec<u8>, kind: u8, result: &Result<Record<'_>, u8>) {
    match result {
        Ok(record) => {
            push_number(line, kind, 0);
            line.push(b' ');
            push_record(line, record);
        }
        Err(number) => push_number(line, kind, *number),
    }
}

fn push_number(line: &mut Vec<u8>, kind: u8, number: u8) {
    line.push(kind);
    line.extend_from_slice(format!(" {number}").as_bytes());
}

/// Makes the call of one item. `memory` has at least [`MEMORY_LIMIT`] bytes.
pub fn answer<'a>(item: Item<'a>, memory: &'a mut [u8]) -> Answer<'a> {
    answer_with(OWN, item, memory)
}

fn answer_with<'a>(write: Writers, item: Item<'a>, memory: &'a mut [u8]) -> Answer<'a> {
    match item.kind {
        b'R' => Answer::Read(pdu::read(item.payload)),
        b'r' => Answer::Read(counter::read(item.payload)),
        b'P' => write_answer(write.plain, item.payload, memory),
        b'p' => write_answer(write.counter, item.payload, memory),
        _ => Answer::BadItem,
    }
}

fn write_answer<'a>(write: WriteFn, payload: &[u8], memory: &'a mut [u8]) -> Answer<'a> {
    match write_call(payload) {
        Some((size, record)) => written(write, &record, &mut memory[..size]),
        None => Answer::BadItem,
    }
}

fn written<'a>(write: WriteFn, record: &Record<'_>, memory: &'a mut [u8]) -> Answer<'a> {
    memory.fill(FILL);
    let result = write(record, memory);
    let memory = &*memory;
    let (bytes, kept) = match result {
        Ok(length) => match memory.split_at_checked(length) {
            Some(parts) => parts,
            None => return Answer::MemoryChanged,
        },
        Err(_) => (&memory[..0], memory),
    };
    if kept.iter().any(|&byte| byte != FILL) {
        return Answer::MemoryChanged;
    }
    Answer::Written(result.map(|_| bytes))
}

/// Adds the answer's line; says whether the run ends with it.
fn push_answer(line: &mut Vec<u8>, kind: u8, answer: &Answer<'_>) -> bool {
    match answer {
        Answer::Read(result) => {
            push_read(line, kind, result);
            line.push(b'\n');
        }
        Answer::Written(Ok(bytes)) => {
            push_number(line, kind, 0);
            line.push(b' ');
            push_hex(line, bytes);
            line.push(b'\n');
        }
        Answer::Written(Err(number)) => {
            push_number(line, kind, *number);
            line.push(b'\n');
        }
        Answer::BadItem => line.extend_from_slice(BAD_ITEM),
        Answer::MemoryChanged => line.extend_from_slice(b"output memory changed\n"),
    }
    matches!(answer, Answer::BadItem | Answer::MemoryChanged)
}

/// The size of the memory lent and the record of an item `P` or `p`, or none if it
/// has no listed form.
fn write_call(payload: &[u8]) -> Option<(usize, Record<'_>)> {
    let mut fields = Fields { rest: payload };
    let size = usize::from(fields.u16()?);
    let kind = fields.u16()?;
    let record = fields.record(kind)?;
    (size <= MEMORY_LIMIT && fields.rest.is_empty()).then_some((size, record))
}

/// The bytes of a `P` item not yet taken.
struct Fields<'a> {
    rest: &'a [u8],
}

impl<'a> Fields<'a> {
    fn record(&mut self, kind: u16) -> Option<Record<'a>> {
        Some(match kind {
            order_type::EXECUTE => Record::Execute(self.execute()?),
            order_type::ACTIVATE => Record::Activate(Activate {
                window_id: self.window()?,
                enabled: self.u8()?,
            }),
            order_type::SYSTEM_COMMAND => Record::SystemCommand(SystemCommand {
                window_id: self.window()?,
                command: self.u16()?,
            }),
            order_type::HANDSHAKE => Record::Handshake(Handshake {
                build_number: self.u32()?,
            }),
            order_type::NOTIFY_EVENT => Record::NotifyEvent(NotifyEvent {
                window_id: self.window()?,
                notify_icon_id: NotifyIconId(self.u32()?),
                message: self.u32()?,
            }),
            order_type::WINDOW_MOVE => Record::WindowMove(WindowMove {
                window_id: self.window()?,
                left: self.i16()?,
                top: self.i16()?,
                right: self.i16()?,
                bottom: self.i16()?,
            }),
            order_type::MOVE_SIZE => Record::MoveSize(MoveSize {
                window_id: self.window()?,
                is_move_size_start: self.u8()? != 0,
                move_size_type: self.u16()?,
                pos_x: self.i16()?,
                pos_y: self.i16()?,
            }),
            order_type::MIN_MAX_INFO => Record::MinMaxInfo(self.min_max_info()?),
            order_type::CLIENT_INFORMATION => {
                Record::ClientInformation(ClientInformation { flags: self.u32()? })
            }
            order_type::SYSTEM_MENU => Record::SystemMenu(SystemMenu {
                window_id: self.window()?,
                left: self.i16()?,
                top: self.i16()?,
            }),
            order_type::GET_APPLICATION_ID => Record::GetApplicationId(GetApplicationId {
                window_id: self.window()?,
            }),
            order_type::APPLICATION_ID_RESPONSE => {
                Record::ApplicationIdResponse(self.application_id_response()?)
            }
            order_type::EXECUTE_RESULT => Record::ExecuteResult(self.execute_result()?),
            order_type::SYSTEM_PARAMETERS => Record::SystemParameters(self.system_parameters()?),
            order_type::HANDSHAKE_EX => Record::HandshakeEx(HandshakeEx {
                build_number: self.u32()?,
                flags: self.u32()?,
            }),
            _ => return None,
        })
    }

    fn execute(&mut self) -> Option<Execute<'a>> {
        let flags = self.u16()?;
        let program = self.u16()?;
        let directory = self.u16()?;
        let arguments = self.u16()?;
        Some(Execute {
            flags,
            exe_or_file: self.bytes(program)?,
            working_dir: self.bytes(directory)?,
            arguments: self.bytes(arguments)?,
        })
    }

    fn min_max_info(&mut self) -> Option<MinMaxInfo> {
        Some(MinMaxInfo {
            window_id: self.window()?,
            max_width: self.u16()?,
            max_height: self.u16()?,
            max_pos_x: self.i16()?,
            max_pos_y: self.i16()?,
            min_track_width: self.u16()?,
            min_track_height: self.u16()?,
            max_track_width: self.u16()?,
            max_track_height: self.u16()?,
        })
    }

    fn application_id_response(&mut self) -> Option<ApplicationIdResponse<'a>> {
        let window_id = self.window()?;
        let length = self.u16()?;
        Some(ApplicationIdResponse {
            window_id,
            application_id: self.bytes(length)?,
        })
    }

    fn execute_result(&mut self) -> Option<ExecuteResult<'a>> {
        let flags = self.u16()?;
        let exec_result = self.u16()?;
        let raw_result = self.u32()?;
        let length = self.u16()?;
        Some(ExecuteResult {
            flags,
            exec_result,
            raw_result,
            exe_or_file: self.bytes(length)?,
        })
    }

    fn system_parameters(&mut self) -> Option<SystemParameters<'a>> {
        let setting = self.u32()?;
        let body = match setting::form(setting)? {
            Form::Value => Body::Value(self.u8()?),
            Form::Area => Body::Area(Area {
                left: self.u16()?,
                top: self.u16()?,
                right: self.u16()?,
                bottom: self.u16()?,
            }),
            Form::Contrast => {
                let flags = self.u32()?;
                let length = self.u16()?;
                Body::Contrast(Contrast {
                    flags,
                    color_scheme: self.bytes(length)?,
                })
            }
        };
        Some(SystemParameters { setting, body })
    }

    fn window(&mut self) -> Option<WindowId> {
        self.u32().map(WindowId)
    }

    fn u8(&mut self) -> Option<u8> {
        self.chunk::<1>().map(u8::from_le_bytes)
    }

    fn u16(&mut self) -> Option<u16> {
        self.chunk().map(u16::from_le_bytes)
    }

    fn i16(&mut self) -> Option<i16> {
        self.chunk().map(i16::from_le_bytes)
    }

    fn u32(&mut self) -> Option<u32> {
        self.chunk().map(u32::from_le_bytes)
    }

    fn chunk<const N: usize>(&mut self) -> Option<[u8; N]> {
        let (chunk, rest) = self.rest.split_first_chunk::<N>()?;
        self.rest = rest;
        Some(*chunk)
    }

    fn bytes(&mut self, length: u16) -> Option<&'a [u8]> {
        let (bytes, rest) = self.rest.split_at_checked(usize::from(length))?;
        self.rest = rest;
        Some(bytes)
    }
}
