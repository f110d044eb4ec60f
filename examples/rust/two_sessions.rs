//! The example of `examples/c/two_sessions_by_calls.c` from Rust, by `extern "C"` and with no crates: two sessions in one process,
//! each of which carries the other's messages. A publisher, a subscriber, and a get that a queryable answers.

use std::ffi::c_void;
use std::mem::zeroed;

const OK: u32 = 0;
const ANY: u8 = 0;
const SEND: u8 = 1;
const HAND_SAMPLE: u8 = 2;
const HAND_REPLY: u8 = 3;
const HAND_QUERY: u8 = 4;
const HANDLER_ENDS: u8 = 5;

/// What `yq_session` is: it begins all zero, and is not copied.
#[repr(C)]
struct Slot {
    live: bool,
    at: *mut c_void,
}

#[repr(C)]
struct Settings {
    zid_high: u64,
    zid_low: u64,
    tag: u64,
    default_timeout: u64,
    entity_start: u32,
    query_start: u32,
    line_max: u32,
    key_start: u16,
}

#[repr(C)]
#[derive(Clone, Copy)]
struct Bytes {
    at: *const u8,
    length: usize,
}

#[repr(C)]
struct Answer {
    refusal: u8,
    has_number: bool,
    number: u32,
}

#[repr(C)]
struct Key {
    number: u16,
    text: Bytes,
}

#[repr(C)]
#[derive(Clone, Copy)]
struct Timestamp {
    is_known: bool,
    time: u64,
    id_high: u64,
    id_low: u64,
}

#[repr(C)]
#[derive(Clone, Copy)]
struct Entity {
    is_known: bool,
    zid_high: u64,
    zid_low: u64,
    eid: u32,
}

#[repr(C)]
#[derive(Clone, Copy)]
struct Source {
    id: Entity,
    sn: u32,
}

#[repr(C)]
struct Qos {
    priority: u8,
    blocks: bool,
    express: bool,
}

#[repr(C)]
struct Publication {
    destination: u8,
    qos: Qos,
    best_effort: bool,
}

#[repr(C)]
struct Extras {
    encoding: Bytes,
    timestamp: Timestamp,
    source: Source,
    has_attachment: bool,
    attachment: Bytes,
}

#[repr(C)]
struct Ask {
    destination: u8,
    target: u8,
    consolidation: u8,
    priority: u8,
    drops: bool,
    express: bool,
    any_key: bool,
    has_timeout: bool,
    timeout: u64,
}

#[repr(C)]
struct Inquiry {
    parameters: Bytes,
    has_value: bool,
    payload: Bytes,
    encoding: Bytes,
    source: Source,
    has_attachment: bool,
    attachment: Bytes,
    has_token: bool,
    token: u32,
}

#[repr(C)]
struct ReplyQuality {
    priority: u8,
    congestion: u8,
    express: u8,
}

#[repr(C)]
#[derive(Clone, Copy)]
struct Message {
    kind: u8,
    key_number: u16,
    id: u32,
    has_key: bool,
    scope: u16,
    by_receiver: bool,
    complete: bool,
    has_interest: bool,
    interest: u32,
    mode: u8,
    what: u8,
    deletes: bool,
    is_error: bool,
    has_value: bool,
    has_attachment: bool,
    priority: u8,
    blocks: bool,
    express: bool,
    reliable: bool,
    target: u8,
    consolidation: u8,
    timeout: u64,
    timestamp: Timestamp,
    source: Source,
    responder: Entity,
}

#[repr(C)]
struct Parts {
    key: Bytes,
    payload: Bytes,
    encoding: Bytes,
    parameters: Bytes,
    attachment: Bytes,
}

#[repr(C)]
#[derive(Clone, Copy)]
struct Effect {
    kind: u8,
    entity: u8,
    id: u32,
    query: u32,
    matching: bool,
    message: Message,
    lengths: [usize; 5],
}

extern "C" {
    fn yq_defaults(settings: *mut Settings);
    fn yq_open(session: *mut Slot, settings: *const Settings) -> u32;
    fn yq_free(session: *mut Slot);
    fn yq_end(session: *mut Slot, answer: *mut Answer) -> u32;
    fn yq_declare_subscriber(session: *mut Slot, key: *const Key, origin: u8, answer: *mut Answer) -> u32;
    fn yq_declare_queryable(session: *mut Slot, key: *const Key, origin: u8, complete: bool, answer: *mut Answer) -> u32;
    fn yq_declare_publisher(session: *mut Slot, key: *const Key, how: *const Publication, encoding: *const u8, length: usize, answer: *mut Answer) -> u32;
    fn yq_publisher_put(session: *mut Slot, publisher: u32, payload: *const u8, length: usize, extras: *const Extras, answer: *mut Answer) -> u32;
    fn yq_get(session: *mut Slot, key: *const Key, how: *const Ask, what: *const Inquiry, answer: *mut Answer) -> u32;
    fn yq_reply(session: *mut Slot, query: u32, key: *const Key, payload: *const u8, length: usize, how: *const ReplyQuality, extras: *const Extras, answer: *mut Answer) -> u32;
    fn yq_finish(session: *mut Slot, query: u32, answer: *mut Answer) -> u32;
    fn yq_receive(session: *mut Slot, message: *const Message, parts: *const Parts, answer: *mut Answer) -> u32;
    fn yq_effect(session: *mut Slot, effect: *mut Effect) -> u32;
    fn yq_effect_bytes(session: *mut Slot, part: u8, out: *mut u8, room: usize, count: *mut usize) -> u32;
    fn yq_next_effect(session: *mut Slot) -> u32;
    fn yq_extras_defaults(extras: *mut Extras);
    fn yq_inquiry_defaults(what: *mut Inquiry);
}

/// Bytes that a call is lent. An empty slice of Rust has a pointer that isn't null.
fn lent(bytes: &[u8]) -> Bytes {
    Bytes { at: bytes.as_ptr(), length: bytes.len() }
}

fn key(text: &str) -> Key {
    Key { number: 0, text: lent(text.as_bytes()) }
}

/// A session in a place that doesn't move.
struct Side {
    name: &'static str,
    slot: Box<Slot>,
}

impl Drop for Side {
    fn drop(&mut self) {
        unsafe { yq_free(&mut *self.slot) }
    }
}

impl Side {
    fn open(name: &'static str, zid: u64) -> Side {
        let mut slot = Box::new(Slot { live: false, at: std::ptr::null_mut() });
        unsafe {
            let mut settings: Settings = zeroed();
            yq_defaults(&mut settings);
            settings.zid_low = zid;
            settings.tag = zid;
            assert_eq!(yq_open(&mut *slot, &settings), OK);
        }
        Side { name, slot }
    }

    /// The number that an event drew, by a call of the library that has to be accepted.
    fn accepted(&mut self, call: impl FnOnce(*mut Slot, *mut Answer) -> u32) -> u32 {
        let mut answer = Answer { refusal: 0, has_number: false, number: 0 };
        assert_eq!(call(&mut *self.slot, &mut answer), OK);
        assert_eq!(answer.refusal, 0, "{} refuses", self.name);
        answer.number
    }

    /// The first effect that waits, with its texts and bytes. It waits no more.
    fn next(&mut self) -> Option<(Effect, Vec<Vec<u8>>)> {
        unsafe {
            let mut effect: Effect = zeroed();
            if yq_effect(&mut *self.slot, &mut effect) != OK {
                return None;
            }
            let mut parts = Vec::new();
            for (place, length) in effect.lengths.iter().enumerate() {
                let mut bytes = vec![0; *length];
                let mut count = 0;
                assert_eq!(yq_effect_bytes(&mut *self.slot, place as u8 + 1, bytes.as_mut_ptr(), *length, &mut count), OK);
                assert_eq!(count, *length);
                parts.push(bytes);
            }
            assert_eq!(yq_next_effect(&mut *self.slot), OK);
            Some((effect, parts))
        }
    }

    /// Takes a message of the other side.
    fn receive(&mut self, message: &Message, parts: &[Vec<u8>]) {
        let lent_parts = Parts {
            key: lent(&parts[0]),
            payload: lent(&parts[1]),
            encoding: lent(&parts[2]),
            parameters: lent(&parts[3]),
            attachment: lent(&parts[4]),
        };
        let mut answer = Answer { refusal: 0, has_number: false, number: 0 };
        assert_eq!(unsafe { yq_receive(&mut *self.slot, message, &lent_parts, &mut answer) }, OK);
        println!("{}\ttakes message {}", self.name, message.kind);
    }

    /// Answers a query, and gives it back.
    fn answer(&mut self, query: u32, text: &[u8]) {
        let on = Key { number: 0, text: lent(text) };
        let how = ReplyQuality { priority: 0, congestion: 0, express: 0 };
        unsafe {
            let mut extras: Extras = zeroed();
            yq_extras_defaults(&mut extras);
            extras.encoding = lent(b"text/plain");
            self.accepted(|slot, answer| yq_reply(slot, query, &on, b"on".as_ptr(), 2, &how, &extras, answer));
            self.accepted(|slot, answer| yq_finish(slot, query, answer));
        }
    }
}

fn text(bytes: &[u8]) -> &str {
    std::str::from_utf8(bytes).expect("keys and encodings are texts")
}

/// Carries out all that waits on a side. Tells whether anything did.
fn carry(from: &mut Side, to: &mut Side) -> bool {
    let mut any = false;
    while let Some((effect, parts)) = from.next() {
        any = true;
        match effect.kind {
            SEND => to.receive(&effect.message, &parts),
            HAND_SAMPLE => println!("{}\tsubscriber {}\t{}\t{} bytes of {}", from.name, effect.id, text(&parts[0]), parts[1].len(), text(&parts[2])),
            HAND_REPLY => println!("{}\tget {}\t{}\t{} bytes of {}\tby {}:{}", from.name, effect.id, text(&parts[0]), parts[1].len(),
                text(&parts[2]), effect.message.responder.zid_low, effect.message.responder.eid),
            HAND_QUERY => {
                println!("{}\tqueryable {}\t{}", from.name, effect.id, text(&parts[0]));
                from.answer(effect.query, &parts[0]);
            }
            HANDLER_ENDS => println!("{}\t{} ends, of sort {}", from.name, effect.id, effect.entity),
            kind => println!("{}\teffect {}", from.name, kind),
        }
    }
    any
}

fn settle(one: &mut Side, other: &mut Side) {
    while carry(one, other) | carry(other, one) {}
}

fn main() {
    let mut lamp = Side::open("lamp", 1);
    let mut panel = Side::open("panel", 2);
    let (commands, state) = (key("home/lamp/set"), key("home/lamp"));
    unsafe {
        lamp.accepted(|slot, answer| yq_declare_subscriber(slot, &commands, ANY, answer));
        lamp.accepted(|slot, answer| yq_declare_queryable(slot, &state, ANY, true, answer));
        settle(&mut lamp, &mut panel);
        let how: Publication = zeroed();
        let publisher = panel.accepted(|slot, answer| yq_declare_publisher(slot, &commands, &how, b"".as_ptr(), 0, answer));
        let mut extras: Extras = zeroed();
        yq_extras_defaults(&mut extras);
        panel.accepted(|slot, answer| yq_publisher_put(slot, publisher, b"on".as_ptr(), 2, &extras, answer));
        settle(&mut panel, &mut lamp);
        let ask: Ask = zeroed();
        let mut what: Inquiry = zeroed();
        yq_inquiry_defaults(&mut what);
        panel.accepted(|slot, answer| yq_get(slot, &state, &ask, &what, answer));
        settle(&mut panel, &mut lamp);
        panel.accepted(|slot, answer| yq_end(slot, answer));
        settle(&mut panel, &mut lamp);
        lamp.accepted(|slot, answer| yq_end(slot, answer));
        settle(&mut lamp, &mut panel);
    }
}
