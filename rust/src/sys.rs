//! The declarations of `nozzlegorse.h`.
#![allow(non_camel_case_types)]
use std::ffi::c_void;

macro_rules! structs {
    ($($name:ident { $($kind:ty: $($field:ident)*;)* })*) => {$(
        #[repr(C)]
        #[derive(Clone, Copy, Debug, PartialEq, Eq, Hash)]
        pub struct $name { $($(pub $field: $kind,)*)* }

        impl Default for $name {
            fn default() -> $name {
                // SAFETY: numbers, flags and pointers may be zeros.
                unsafe { std::mem::zeroed() }
            }
        }
    )*};
}

structs! {
    nzg_answer { u32: status number; usize: place length; }
    nzg_outcome { u64: transactions; u8: attempts address selected step index; u16: language; }
    nzg_descriptor {
        usize: place languages_place endpoint_number;
        [u64; 4]: named;
        u16: language packet;
        u8: length r#type role owner depth part index attributes transactions interval;
        usize: next left strings main_sets other_sets set associations settings setting endpoints;
        u8: interface_ alternate class_ subclass protocol endpoint below;
        bool: is_other has_device has_languages;
    }
    nzg_field { usize: place; u64: value; u8: width name_length; [u8; 62]: name; }
    nzg_found { usize: place length next; u8: kind; }
    nzg_finding { usize: place set setting endpoint; u8: rule part role; }
    nzg_remark { usize: place set setting endpoint; u8: number part role; }
    nzg_packet_fields { u32: split; u16: frame place length; u8: pid address endpoint; }
    nzg_transaction { u8: address stage toggle; [u8; 8]: setup; }
    nzg_packet { u8: reply toggle length; [u8; 64]: data; }
    nzg_setup { [u8; 8]: bytes; }
    nzg_open_transfer { u16: acknowledged sent; u8: last stage; }
    nzg_state { u8: address selected; [u8; 256]: alternates; u32: halts; bool: wakeup; }
    nzg_trouble { u8: why step index; u16: language; }
    nzg_step { u16: naks kept language; u8: step index strikes; [u8; 8]: setup; }
    nzg_device {
        u8: stage toggle;
        bool: settled pending;
        u8: source;
        [u8; 2]: own;
        [u8; 8]: request;
        usize: place count offset;
        nzg_state: state;
    }
    nzg_transfer { u16: naks nak_count kept; u8: address packet stage why toggle strikes; [u8; 8]: setup; }
    nzg_write { nzg_transfer: transfer; }
    nzg_host { *mut c_void: held; }
    nzg_decoder { *mut c_void: held; }
    nzg_recorded {
        u64: time begun;
        usize: count;
        u32: length status;
        u16: bus device;
        [u8; 8]: setup;
        u8: ending finding;
        bool: is_cut has_time has_begun has_device;
    }
    nzg_capture { *mut c_void: held; }
}

extern "C" {
    pub fn nzg_show(bytes: *const u8, len: usize, any: bool, text: *mut u8, room: usize) -> nzg_answer;
    pub fn nzg_explain(bytes: *const u8, len: usize, options: u32, speed: u8, text: *mut u8, room: usize) -> nzg_answer;
    pub fn nzg_from_text(text: *const u8, len: usize, bytes: *mut u8, room: usize) -> nzg_answer;
    pub fn nzg_build(text: *const u8, len: usize, comments: bool, bytes: *mut u8, room: usize) -> nzg_answer;
    pub fn nzg_enumerate(
        bytes: *const u8, len: usize, speed: u8, naks: u16, attempts: u8, fates: *const u8, fates_len: usize,
        outcome: *mut nzg_outcome, text: *mut u8, room: usize,
    ) -> nzg_answer;
    pub fn nzg_enumerate_log(
        bytes: *const u8, len: usize, speed: u8, naks: u16, attempts: u8, fates: *const u8, fates_len: usize, text: *mut u8,
        room: usize,
    ) -> nzg_answer;
    pub fn nzg_next(bytes: *const u8, len: usize, descriptor: *mut nzg_descriptor) -> bool;
    pub fn nzg_fields(
        bytes: *const u8, len: usize, descriptor: *const nzg_descriptor, fields: *mut nzg_field, room: usize,
    ) -> nzg_answer;
    pub fn nzg_field_named(
        bytes: *const u8, len: usize, descriptor: *const nzg_descriptor, name: *const u8, name_len: usize,
        field: *mut nzg_field,
    ) -> bool;
    pub fn nzg_find_all(bytes: *const u8, len: usize, start: usize, found: *mut nzg_found, room: usize) -> usize;
    pub fn nzg_judge(bytes: *const u8, len: usize) -> nzg_answer;
    pub fn nzg_findings(bytes: *const u8, len: usize, found: *mut nzg_finding, room: usize) -> nzg_answer;
    pub fn nzg_remarks(bytes: *const u8, len: usize, speed: u8, remarks: *mut nzg_remark, room: usize) -> nzg_answer;
    pub fn nzg_finding_text(
        bytes: *const u8, len: usize, finding: *const nzg_finding, text: *mut u8, room: usize,
    ) -> nzg_answer;
    pub fn nzg_remark_text(
        bytes: *const u8, len: usize, speed: u8, remark: *const nzg_remark, text: *mut u8, room: usize,
    ) -> nzg_answer;
    pub fn nzg_fault_text(bytes: *const u8, len: usize, text: *mut u8, room: usize) -> nzg_answer;
    pub fn nzg_text(bytes: *const u8, len: usize, string: *const nzg_descriptor, text: *mut u8, room: usize) -> nzg_answer;
    pub fn nzg_with_strings(dump: *const u8, len: usize, file: *mut u8, room: usize) -> nzg_answer;
    pub fn nzg_packet_parse(bytes: *const u8, len: usize, packet: *mut nzg_packet_fields) -> u8;
    pub fn nzg_packet_write(
        packet: *const nzg_packet_fields, data: *const u8, len: usize, bytes: *mut u8, room: usize,
    ) -> nzg_answer;
    pub fn nzg_crc5(fields: u32, width: u32) -> u8;
    pub fn nzg_crc16(bytes: *const u8, len: usize) -> u16;
    pub fn nzg_device_image(file: *const u8, len: usize, speed: u8, image: *mut u8, room: usize) -> nzg_answer;
    pub fn nzg_device_reset(device: *mut nzg_device);
    pub fn nzg_device_serve(
        device: *mut nzg_device, image: *const u8, image_len: usize, kept: *mut u8, kept_len: usize,
        transaction: *const nzg_transaction, data: *const u8, len: usize, ready: bool, packet: *mut nzg_packet,
    ) -> bool;
    pub fn nzg_device_acked(device: *mut nzg_device, image: *const u8, image_len: usize) -> bool;
    pub fn nzg_device_refused(device: *const nzg_device, setup: *mut nzg_setup) -> bool;
    pub fn nzg_device_answer_with(
        device: *mut nzg_device, kept: *mut u8, kept_len: usize, bytes: *const u8, len: usize,
    ) -> nzg_answer;
    pub fn nzg_device_accept(device: *mut nzg_device, kept_len: usize) -> nzg_answer;
    pub fn nzg_device_written(device: *const nzg_device, kept: *const u8, kept_len: usize, setup: *mut nzg_setup)
        -> nzg_answer;
    pub fn nzg_device_refuse(device: *mut nzg_device, image: *const u8, image_len: usize) -> bool;
    pub fn nzg_device_carried_out(device: *const nzg_device, setup: *mut nzg_setup) -> bool;
    pub fn nzg_judge_device(
        device: *mut nzg_device, image: *const u8, image_len: usize, kept: *mut u8, kept_len: usize,
        open: *mut nzg_open_transfer, request: *const nzg_setup, transaction: *const nzg_transaction, data: *const u8,
        len: usize, came: *const nzg_packet, has: *mut nzg_packet,
    ) -> u8;
    pub fn nzg_judge_acked(open: *mut nzg_open_transfer);
    pub fn nzg_transfer_open(
        transfer: *mut nzg_transfer, address: u8, packet: u8, naks: u16, setup: *const nzg_setup,
    ) -> nzg_answer;
    pub fn nzg_transfer_next(transfer: *const nzg_transfer, transaction: *mut nzg_transaction) -> bool;
    pub fn nzg_transfer_take(transfer: *mut nzg_transfer, reply: u8, toggle: u8, data: *const u8, len: usize) -> nzg_answer;
    pub fn nzg_write_open(write: *mut nzg_write, address: u8, packet: u8, naks: u16, setup: *const nzg_setup) -> nzg_answer;
    pub fn nzg_write_next(
        write: *const nzg_write, data: *const u8, len: usize, transaction: *mut nzg_transaction,
    ) -> nzg_answer;
    pub fn nzg_write_take(write: *mut nzg_write, reply: u8, toggle: u8, data: *const u8, len: usize) -> nzg_answer;
    pub fn nzg_host_open(host: *mut nzg_host, address: u8, naks: u16, attempts: u8, speed: u8) -> nzg_answer;
    pub fn nzg_host_open_with(
        host: *mut nzg_host, address: u8, naks: u16, attempts: u8, speed: u8, strings: u8, other_speed: bool,
    ) -> nzg_answer;
    pub fn nzg_host_next(host: *mut nzg_host, transaction: *mut nzg_transaction) -> u8;
    pub fn nzg_host_reset_done(host: *mut nzg_host) -> bool;
    pub fn nzg_host_take(host: *mut nzg_host, reply: u8, toggle: u8, data: *const u8, len: usize) -> bool;
    pub fn nzg_host_step(host: *mut nzg_host, step: *mut nzg_step) -> bool;
    pub fn nzg_host_attempts(host: *mut nzg_host) -> u8;
    pub fn nzg_host_forgiven(host: *mut nzg_host, number: usize, trouble: *mut nzg_trouble) -> bool;
    pub fn nzg_host_outcome(host: *mut nzg_host, trouble: *mut nzg_trouble, file: *mut u8, room: usize) -> nzg_answer;
    pub fn nzg_host_close(host: *mut nzg_host);
    pub fn nzg_trouble_text(trouble: *const nzg_trouble, text: *mut u8, room: usize) -> nzg_answer;
    pub fn nzg_decoder_open(decoder: *mut nzg_decoder) -> nzg_answer;
    pub fn nzg_decoder_feed(decoder: *mut nzg_decoder, piece: *const u8, len: usize) -> nzg_answer;
    pub fn nzg_decoder_list(decoder: *mut nzg_decoder, text: *mut u8, room: usize) -> nzg_answer;
    pub fn nzg_decoder_close(decoder: *mut nzg_decoder);
    pub fn nzg_capture_open(capture: *mut nzg_capture) -> nzg_answer;
    pub fn nzg_capture_feed(capture: *mut nzg_capture, bytes: *const u8, len: usize) -> nzg_answer;
    pub fn nzg_capture_get(
        capture: *mut nzg_capture, kind: u8, number: usize, recorded: *mut nzg_recorded, data: *mut u8, room: usize,
    ) -> nzg_answer;
    pub fn nzg_capture_end(capture: *mut nzg_capture) -> nzg_answer;
    pub fn nzg_capture_file(capture: *mut nzg_capture, bus: u16, device: u16, bytes: *mut u8, room: usize) -> nzg_answer;
    pub fn nzg_capture_close(capture: *mut nzg_capture);
}
