//! Scripts and how one is read.

use crate::region::{Region, RegionFault};
use crate::request::Request;
use serde_json::{Map, Value};
use std::fmt;

/// A region and the requests to it.
#[derive(Debug)]
pub struct Script {
    pub region: Region,
    pub requests: Vec<Request>,
}

/// Why a script is refused: the first fault that its walk meets.
#[derive(Debug)]
pub enum ScriptFault {
    NotJson,
    NotObject,
    Missing(&'static str),
    BadMember(&'static str),
    TooManyRequests,
    RegionRefused(RegionFault),
}

const MOST_REQUESTS: usize = 4096;

type Object = Map<String, Value>;

fn member<'a>(object: &'a Object, name: &'static str) -> Result<&'a Value, ScriptFault> {
    object.get(name).ok_or(ScriptFault::Missing(name))
}

/// A member that is a whole number up to a greatest one.
fn number(object: &Object, name: &'static str, top: u64) -> Result<u64, ScriptFault> {
    match member(object, name)?.as_u64() {
        Some(number) if number <= top => Ok(number),
        _ => Err(ScriptFault::BadMember(name)),
    }
}

/// The bytes that 32 hex digits spell.
fn packet(text: &str) -> Option<[u8; 16]> {
    if text.len() != 32 || !text.bytes().all(|byte| byte.is_ascii_hexdigit()) {
        return None;
    }
    let number = u128::from_str_radix(text, 16).ok()?;
    Some(number.to_be_bytes())
}

fn lanes(object: &Object) -> Result<[u8; 16], ScriptFault> {
    let text = member(object, "lanes")?.as_str();
    text.and_then(packet).ok_or(ScriptFault::BadMember("lanes"))
}

fn request(value: &Value, most_src: u64) -> Result<Request, ScriptFault> {
    let object = value
        .as_object()
        .ok_or(ScriptFault::BadMember("requests"))?;
    Ok(Request {
        src: number(object, "src", most_src)? as u8,
        txn: number(object, "txn", 255)? as u8,
        opcode: number(object, "op", 255)? as u8,
        size: number(object, "size", 7)? as u8,
        addr: number(object, "addr", u64::MAX)?,
        endian: number(object, "endian", 1)? == 1,
        be: number(object, "be", 65535)? as u16,
        lanes: lanes(object)?,
    })
}

/// The script that a text is, for requesters up to the greatest one, or its first fault.
pub fn read_script(text: &[u8], most_src: u64) -> Result<Script, ScriptFault> {
    let value: Value = serde_json::from_slice(text).map_err(|_| ScriptFault::NotJson)?;
    let object = value.as_object().ok_or(ScriptFault::NotObject)?;
    let base = number(object, "base", u64::MAX)?;
    let granules = number(object, "granules", 65535)? as u16;
    let requests = member(object, "requests")?
        .as_array()
        .ok_or(ScriptFault::BadMember("requests"))?
        .iter()
        .map(|value| request(value, most_src))
        .collect::<Result<Vec<_>, _>>()?;
    if requests.len() > MOST_REQUESTS {
        return Err(ScriptFault::TooManyRequests);
    }
    let region = Region::new(base, granules).map_err(ScriptFault::RegionRefused)?;
    Ok(Script { region, requests })
}

impl fmt::Display for ScriptFault {
    fn fmt(&self, f: &mut fmt::Formatter<'_>) -> fmt::Result {
        match self {
            ScriptFault::NotJson => write!(f, "script is not JSON"),
            ScriptFault::NotObject => write!(f, "script is not an object"),
            ScriptFault::Missing(name) => write!(f, "script member {name} is missing"),
            ScriptFault::BadMember(name) => write!(f, "script member {name} is not as stated"),
            ScriptFault::TooManyRequests => write!(f, "script has over {MOST_REQUESTS} requests"),
            ScriptFault::RegionRefused(fault) => write!(f, "script region is refused: {fault}"),
        }
    }
}
