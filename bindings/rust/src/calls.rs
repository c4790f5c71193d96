//! The numbers and calls of mabristu.h.
use crate::structs::{
    Bytes, Counts, DecoderHandle, Difference, Enum, Fault, Field, File, Frame, Handle, Keys, MessageHandle, Refusal, Step, Steps, TextForm,
    Type, Value,
};

pub const INTERFACE: u32 = 10;
// What a call answers. Numbers from 50 on are the causes why declarations are refused.
pub const DONE: u32 = 0;
pub const BAD_LIMITS: u32 = 1;
pub const NO_TYPE: u32 = 2;
pub const PART: u32 = 5;
pub const ABSENT: u32 = 6;
pub const BAD_PLACE: u32 = 7;
pub const BAD_VALUE: u32 = 8;
pub const WRONG_KIND: u32 = 22;
pub const FAULT: u32 = 13;
pub const MEMORY: u32 = 14;
pub const TOO_LARGE: u32 = 31;
pub const FINISHED: u32 = 43;
pub const TRUNCATED: u32 = 1;
// The kinds of values, and the steps of a place that are no keys.
pub const DOUBLE: u32 = 1;
pub const FLOAT: u32 = 2;
pub const INT64: u32 = 3;
pub const UINT64: u32 = 4;
pub const INT32: u32 = 5;
pub const BOOL: u32 = 8;
pub const STRING: u32 = 9;
pub const MESSAGE: u32 = 11;
pub const BYTES: u32 = 12;
pub const UINT32: u32 = 13;
pub const ENUM: u32 = 14;
pub const LIST: u32 = 19;
pub const MAP: u32 = 20;
pub const FIELD: u32 = 21;
pub const INDEX: u32 = 22;
pub const MAX_BYTES: u32 = 0x7fff_ffff;
pub const MAX_DEPTH: u8 = 100;
pub const MAX_STEPS: usize = 201;

type At = *const u8;
type Out = *mut u8;
type Message = *mut MessageHandle;
#[rustfmt::skip]
extern "C" {
    pub fn mb_interface() -> u32;
    pub fn mb_cause_name(cause: u32, name: Out, name_len: usize, size: &mut usize) -> u32;
    pub fn mb_raw_check(bytes: At, len: usize, max_bytes: u32, max_depth: u8, fault: &mut Fault, path: *mut Step, path_len: usize) -> u32;
    pub fn mb_raw_short(bytes: At, len: usize, max_bytes: u32, max_depth: u8, out: Out, out_len: usize, size: &mut usize,
        fault: &mut Fault, path: *mut Step, path_len: usize) -> u32;
    pub fn mb_pool_link(set: At, len: usize, pool: *mut Handle, fault: &mut Fault, path: *mut Step, path_len: usize,
        refusal: &mut Refusal, text: Out, text_len: usize) -> u32;
    pub fn mb_pool_link_lenient(set: At, len: usize, pool: *mut Handle, left_out: &mut usize, fault: &mut Fault, path: *mut Step, path_len: usize,
        refusal: &mut Refusal, text: Out, text_len: usize) -> u32;
    pub fn mb_pool_compile(names: *const Bytes, names_len: usize, texts: *const Bytes, texts_len: usize, pool: *mut Handle,
        refusal: &mut Refusal, text: Out, text_len: usize) -> u32;
    pub fn mb_pool_compile_lenient(names: *const Bytes, names_len: usize, texts: *const Bytes, texts_len: usize, pool: *mut Handle,
        refusal: &mut Refusal, text: Out, text_len: usize) -> u32;
    pub fn mb_pool_share(pool: *mut Handle, other: *mut Handle) -> u32;
    pub fn mb_pool_set(pool: *mut Handle, out: Out, out_len: usize, size: &mut usize) -> u32;
    pub fn mb_pool_free(pool: *mut Handle);
    pub fn mb_pool_type(pool: *mut Handle, name: At, name_len: usize, number: &mut u32) -> u32;
    pub fn mb_pool_field(pool: *mut Handle, number: u32, name: At, name_len: usize, field: &mut Field) -> u32;
    pub fn mb_path(pool: *mut Handle, number: u32, path: At, path_len: usize, place: *mut Value, place_len: usize,
        lengths: *mut usize, lengths_len: usize, strings: Out, strings_len: usize, report: &mut Steps) -> u32;
    pub fn mb_pool_counts(pool: *mut Handle, counts: &mut Counts) -> u32;
    pub fn mb_pool_message(pool: *mut Handle, number: u32, report: &mut Type, name: Out, name_len: usize, size: &mut usize) -> u32;
    pub fn mb_pool_field_at(pool: *mut Handle, number: u32, index: usize, report: &mut Field, detail: &mut u32,
        name: Out, name_len: usize, size: &mut usize) -> u32;
    pub fn mb_pool_oneof(pool: *mut Handle, number: u32, index: usize, name: Out, name_len: usize, size: &mut usize) -> u32;
    pub fn mb_pool_enum(pool: *mut Handle, entry: usize, report: &mut Enum, name: Out, name_len: usize, size: &mut usize) -> u32;
    pub fn mb_pool_enum_value(pool: *mut Handle, entry: usize, index: usize, number: &mut i32, name: Out, name_len: usize, size: &mut usize) -> u32;
    pub fn mb_pool_file(pool: *mut Handle, index: usize, report: &mut File, names: Out, names_len: usize) -> u32;
    pub fn mb_compat(old_pool: *mut Handle, old_type: u32, new_pool: *mut Handle, new_type: u32,
        out: *mut Difference, out_len: usize, count: &mut usize) -> u32;
    pub fn mb_compat_witness(old_pool: *mut Handle, old_type: u32, new_pool: *mut Handle, new_type: u32,
        difference: &Difference, message: Message) -> u32;
    pub fn mb_check(pool: *mut Handle, number: u32, bytes: At, len: usize, max_bytes: u32, max_depth: u8,
        fault: &mut Fault, path: *mut Step, path_len: usize) -> u32;
    pub fn mb_find(pool: *mut Handle, number: u32, bytes: At, len: usize, max_bytes: u32, max_depth: u8, numbers: *const u32, numbers_len: usize,
        value: &mut Value, out: Out, out_len: usize, fault: &mut Fault, path: *mut Step, path_len: usize) -> u32;
    pub fn mb_canon(pool: *mut Handle, number: u32, bytes: At, len: usize, max_bytes: u32, max_depth: u8,
        out: Out, out_len: usize, size: &mut usize, fault: &mut Fault, path: *mut Step, path_len: usize) -> u32;
    pub fn mb_show(pool: *mut Handle, number: u32, bytes: At, len: usize, max_bytes: u32, max_depth: u8,
        out: Out, out_len: usize, size: &mut usize, fault: &mut Fault, path: *mut Step, path_len: usize) -> u32;
    pub fn mb_show_decimal(pool: *mut Handle, number: u32, bytes: At, len: usize, max_bytes: u32, max_depth: u8,
        out: Out, out_len: usize, size: &mut usize, fault: &mut Fault, path: *mut Step, path_len: usize) -> u32;
    pub fn mb_frames(pool: *mut Handle, number: u32, bytes: At, len: usize, max_bytes: u32, max_depth: u8,
        frame: &mut Frame, fault: &mut Fault, path: *mut Step, path_len: usize) -> u32;
    pub fn mb_message_new(pool: *mut Handle, number: u32, message: *mut MessageHandle) -> u32;
    pub fn mb_message_decode(pool: *mut Handle, number: u32, bytes: At, len: usize, max_bytes: u32, max_depth: u8,
        message: *mut MessageHandle, fault: &mut Fault, path: *mut Step, path_len: usize) -> u32;
    pub fn mb_message_copy(message: Message, other: Message) -> u32;
    pub fn mb_message_equal(message: Message, other: Message, equal: &mut u32) -> u32;
    pub fn mb_message_merge(message: Message, bytes: At, len: usize, max_bytes: u32, max_depth: u8,
        fault: &mut Fault, path: *mut Step, path_len: usize) -> u32;
    pub fn mb_message_encode(message: *mut MessageHandle, out: Out, out_len: usize, size: &mut usize) -> u32;
    pub fn mb_message_frame(message: *mut MessageHandle, out: Out, out_len: usize, size: &mut usize) -> u32;
    pub fn mb_message_encoded_length(message: *mut MessageHandle, size: &mut usize) -> u32;
    pub fn mb_message_show(message: *mut MessageHandle, out: Out, out_len: usize, size: &mut usize) -> u32;
    pub fn mb_message_show_decimal(message: *mut MessageHandle, out: Out, out_len: usize, size: &mut usize) -> u32;
    pub fn mb_message_text(message: *mut MessageHandle, form: &TextForm, out: Out, out_len: usize, size: &mut usize) -> u32;
    pub fn mb_message_oneof(message: Message, place: *const Value, place_len: usize, keys: *const Bytes, keys_len: usize,
        oneof: u32, number: &mut u32) -> u32;
    pub fn mb_message_unknown(message: Message, place: *const Value, place_len: usize, keys: *const Bytes, keys_len: usize,
        out: Out, out_len: usize, size: &mut usize) -> u32;
    pub fn mb_message_json(pool: *mut Handle, message: *mut MessageHandle, declared_names: bool, indented: bool,
        out: Out, out_len: usize, size: &mut usize, path: *mut u32, path_len: usize, steps: &mut usize) -> u32;
    pub fn mb_message_from_json(pool: *mut Handle, number: u32, json: At, json_len: usize, lenient: bool, message: *mut MessageHandle,
        byte: &mut usize) -> u32;
    pub fn mb_from_json(pool: *mut Handle, number: u32, json: At, json_len: usize, lenient: bool,
        out: Out, out_len: usize, size: &mut usize, byte: &mut usize) -> u32;
    pub fn mb_message_get(message: Message, place: *const Value, place_len: usize, keys: *const Bytes, keys_len: usize, value: &mut Value) -> u32;
    pub fn mb_message_read(message: Message, place: *const Value, place_len: usize, keys: *const Bytes, keys_len: usize,
        out: Out, out_len: usize, size: &mut usize) -> u32;
    pub fn mb_message_fields(message: Message, place: *const Value, place_len: usize, keys: *const Bytes, keys_len: usize,
        numbers: *mut u32, numbers_len: usize, count: &mut usize) -> u32;
    pub fn mb_message_key(message: Message, place: *const Value, place_len: usize, keys: *const Bytes, keys_len: usize,
        index: usize, key: &mut Value, out: Out, out_len: usize) -> u32;
    pub fn mb_message_keys(message: Message, place: *const Value, place_len: usize, keys: *const Bytes, keys_len: usize,
        first: usize, found: *mut Value, found_len: usize, out: Out, out_len: usize, counts: &mut Keys) -> u32;
    pub fn mb_message_set(message: Message, place: *const Value, place_len: usize, strings: *const Bytes, strings_len: usize, value: &Value) -> u32;
    pub fn mb_message_clear(message: Message, place: *const Value, place_len: usize, strings: *const Bytes, strings_len: usize) -> u32;
    pub fn mb_message_push(message: Message, place: *const Value, place_len: usize, strings: *const Bytes, strings_len: usize, value: &Value) -> u32;
    pub fn mb_message_insert(message: Message, place: *const Value, place_len: usize, strings: *const Bytes, strings_len: usize, value: &Value) -> u32;
    pub fn mb_message_remove(message: Message, place: *const Value, place_len: usize, strings: *const Bytes, strings_len: usize) -> u32;
    pub fn mb_message_drop_unknown(message: Message, place: *const Value, place_len: usize, strings: *const Bytes, strings_len: usize) -> u32;
    pub fn mb_message_free(message: *mut MessageHandle);
    pub fn mb_decoder_new(pool: *mut Handle, number: u32, max_bytes: u32, max_depth: u8, decoder: *mut DecoderHandle) -> u32;
    pub fn mb_decoder_feed(decoder: *mut DecoderHandle, piece: At, piece_len: usize, fault: &mut Fault, path: *mut Step, path_len: usize) -> u32;
    pub fn mb_decoder_finish(decoder: *mut DecoderHandle, message: Message, fault: &mut Fault, path: *mut Step, path_len: usize) -> u32;
    pub fn mb_decoder_pending(decoder: *mut DecoderHandle, pending: &mut usize) -> u32;
    pub fn mb_decoder_free(decoder: *mut DecoderHandle);
}
