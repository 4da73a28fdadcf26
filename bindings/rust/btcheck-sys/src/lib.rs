//! Declarations of `btcheck.h`, whose comments say what each call does. The crate `btcheck` is a safe layer over them.
#![no_std]
#![allow(non_camel_case_types)]

use core::ffi::c_void;

/// What each call returns that may be refused.
pub type btcheck_status = u32;

pub const BTCHECK_OK: btcheck_status = 0;
pub const BTCHECK_WRONG_HANDLE: btcheck_status = 1;
pub const BTCHECK_NO_MEMORY: btcheck_status = 2;
pub const BTCHECK_TOO_LONG: btcheck_status = 3;
pub const BTCHECK_NO_ROOT: btcheck_status = 4;
pub const BTCHECK_NO_SUCH: btcheck_status = 5;
pub const BTCHECK_NOTHING: btcheck_status = 6;
pub const BTCHECK_TOO_SMALL: btcheck_status = 7;
pub const BTCHECK_BAD_SIZE: btcheck_status = 8;
pub const BTCHECK_TOO_SHORT: btcheck_status = 9;
pub const BTCHECK_BAD_PIECE: btcheck_status = 10;
pub const BTCHECK_HELD: btcheck_status = 11;
/// Refusals of a torrent are this and the number that `btcheck show` prints.
pub const BTCHECK_TORRENT: btcheck_status = 100;
/// Refusals of a hashes message are this and n of Hn.
pub const BTCHECK_H: btcheck_status = 200;
/// Refusals of a block are this and n of Pn.
pub const BTCHECK_P: btcheck_status = 300;

/// Bytes of a block that is not its file's last.
pub const BTCHECK_BLOCK: usize = 16384;
/// Bytes of a hash.
pub const BTCHECK_HASH: usize = 32;

/// Most blocks of one piece message.
pub const BTCHECK_MOST_BLOCKS: usize = 17;

/// What a message was, and what was made of it: the `kind` of a verdict.
pub const BTCHECK_STORED: u32 = 1;
pub const BTCHECK_BLOCKS: u32 = 2;
pub const BTCHECK_ANSWERED: u32 = 3;
pub const BTCHECK_REJECTED: u32 = 4;
pub const BTCHECK_REJECT_NOTED: u32 = 5;
pub const BTCHECK_KEEP_ALIVE: u32 = 6;
pub const BTCHECK_SKIPPED: u32 = 7;

/// What the first fault of bytes is that are no canonical bencoding.
pub const BTCHECK_FAULT_TRUNCATED: u32 = 1;
pub const BTCHECK_FAULT_BAD_START: u32 = 2;
pub const BTCHECK_FAULT_BAD_INTEGER: u32 = 3;
pub const BTCHECK_FAULT_INTEGER_RANGE: u32 = 4;
pub const BTCHECK_FAULT_BAD_LENGTH: u32 = 5;
pub const BTCHECK_FAULT_KEY_ORDER: u32 = 6;
pub const BTCHECK_FAULT_TRAILING: u32 = 7;
pub const BTCHECK_FAULT_TOO_DEEP: u32 = 8;

/// A key of a torrent file, which a refusal is about.
pub const BTCHECK_KEY_TOP: u32 = 1;
pub const BTCHECK_KEY_INFO: u32 = 2;
pub const BTCHECK_KEY_META_VERSION: u32 = 3;
pub const BTCHECK_KEY_FILE_TREE: u32 = 4;
pub const BTCHECK_KEY_NAME: u32 = 5;
pub const BTCHECK_KEY_PIECE_LENGTH: u32 = 6;
pub const BTCHECK_KEY_PIECE_LAYERS: u32 = 7;

/// Most bytes of one message of an export.
pub const BTCHECK_MOST_EXPORTED: usize = 17461;

/// Bytes of the frame of a hash request, and of a hash reject.
pub const BTCHECK_ASK_FRAME: usize = 53;

/// The builder of a root. Zero bytes are a handle that holds nothing.
#[repr(C)]
#[derive(Debug)]
pub struct btcheck_root {
    pub full: bool,
    pub at: *mut c_void,
}

/// A session. Zero bytes are a handle that holds nothing.
#[repr(C)]
#[derive(Debug)]
pub struct btcheck_session {
    pub full: bool,
    pub at: *mut c_void,
}

/// The check of one file's bytes. Zero bytes are a handle that holds nothing.
#[repr(C)]
#[derive(Debug)]
pub struct btcheck_check {
    pub full: bool,
    pub at: *mut c_void,
}

/// The blocks that are held. Zero bytes are a handle that holds nothing.
#[repr(C)]
#[derive(Debug)]
pub struct btcheck_holdings {
    pub full: bool,
    pub at: *mut c_void,
}

/// The draft of a torrent. Zero bytes are a handle that holds nothing.
#[repr(C)]
#[derive(Debug)]
pub struct btcheck_draft {
    pub full: bool,
    pub at: *mut c_void,
}

/// A file for a draft. Zero bytes are a handle that holds nothing.
#[repr(C)]
#[derive(Debug)]
pub struct btcheck_draft_file {
    pub full: bool,
    pub at: *mut c_void,
}

/// The five fields of a hash request (BEP 52).
#[repr(C)]
#[derive(Clone, Copy, Debug, Default, PartialEq, Eq)]
pub struct btcheck_ask {
    pub root: [u8; 32],
    pub base: u32,
    pub index: u32,
    pub length: u32,
    pub proof: u32,
}

/// What a refusal of a torrent has beside its status.
#[repr(C)]
#[derive(Clone, Copy, Debug, Default, PartialEq, Eq)]
pub struct btcheck_refusal {
    pub offset: u64,
    pub fault: u32,
    pub key: u32,
}

/// Where an export goes on. Zeros are the beginning.
#[repr(C)]
#[derive(Clone, Copy, Debug, Default, PartialEq, Eq)]
pub struct btcheck_cursor {
    pub tree: u64,
    pub block: u64,
}

/// A file of a torrent.
#[repr(C)]
#[derive(Clone, Copy, Debug, Default, PartialEq, Eq)]
pub struct btcheck_file {
    pub length: u64,
    pub first_piece: u64,
    pub tree: u64,
    pub root: [u8; 32],
}

/// A piece of a torrent.
#[repr(C)]
#[derive(Clone, Copy, Debug, Default, PartialEq, Eq)]
pub struct btcheck_piece {
    pub length: u64,
    pub file: u64,
    pub block: u64,
    pub offset: u64,
}

/// Bytes of a file as a request has them.
#[repr(C)]
#[derive(Clone, Copy, Debug, Default, PartialEq, Eq)]
pub struct btcheck_piece_range {
    pub piece: u64,
    pub begin: u64,
    pub length: u64,
}

/// The blocks of one piece message.
#[repr(C)]
#[derive(Clone, Copy, Debug, Default, PartialEq, Eq)]
pub struct btcheck_blocks {
    pub file: u64,
    pub first: u64,
    pub count: u64,
    pub statuses: [btcheck_status; BTCHECK_MOST_BLOCKS],
}

/// Blocks of a tree, from the first one to the last one.
#[repr(C)]
#[derive(Clone, Copy, Debug, Default, PartialEq, Eq)]
pub struct btcheck_run {
    pub tree: u64,
    pub first: u64,
    pub last: u64,
}

/// The blocks of one piece message, and of each the run that gave way for it.
#[repr(C)]
#[derive(Clone, Copy, Debug, Default, PartialEq, Eq)]
pub struct btcheck_held {
    pub blocks: btcheck_blocks,
    pub dropped: [btcheck_run; BTCHECK_MOST_BLOCKS],
}

/// What was made of one message.
#[repr(C)]
#[derive(Clone, Copy, Debug, Default, PartialEq, Eq)]
pub struct btcheck_verdict {
    pub kind: u32,
    pub id: u32,
    pub places: u64,
    pub blocks: btcheck_blocks,
}

/// What was made of one whole frame.
#[repr(C)]
#[derive(Clone, Copy, Debug, Default, PartialEq, Eq)]
pub struct btcheck_taken {
    pub verdict: btcheck_verdict,
    pub ask: btcheck_ask,
    pub dropped: [btcheck_run; BTCHECK_MOST_BLOCKS],
}

extern "C" {
    pub fn btcheck_version() -> u32;

    pub fn btcheck_root_new(root: *mut btcheck_root) -> btcheck_status;
    pub fn btcheck_root_push(
        root: *mut btcheck_root,
        bytes: *const u8,
        len: usize,
    ) -> btcheck_status;
    pub fn btcheck_root_finish(
        root: *mut btcheck_root,
        length: *mut u64,
        hash: *mut [u8; 32],
    ) -> btcheck_status;
    pub fn btcheck_root_free(root: *mut btcheck_root);

    pub fn btcheck_check_new(
        check: *mut btcheck_check,
        session: *mut btcheck_session,
        number: usize,
    ) -> btcheck_status;
    pub fn btcheck_check_new_pieces(
        check: *mut btcheck_check,
        session: *mut btcheck_session,
        number: usize,
        from: u64,
        to: u64,
    ) -> btcheck_status;
    pub fn btcheck_check_push(
        check: *mut btcheck_check,
        bytes: *const u8,
        len: usize,
    ) -> btcheck_status;
    pub fn btcheck_check_push_bits(
        check: *mut btcheck_check,
        bytes: *const u8,
        len: usize,
        good: *mut u8,
        good_len: usize,
    ) -> btcheck_status;
    pub fn btcheck_check_finish(check: *mut btcheck_check, piece: *mut u64) -> btcheck_status;
    pub fn btcheck_check_finish_bits(
        check: *mut btcheck_check,
        piece: *mut u64,
        good: *mut u8,
        good_len: usize,
    ) -> btcheck_status;
    pub fn btcheck_check_free(check: *mut btcheck_check);

    pub fn btcheck_holdings_new(
        holdings: *mut btcheck_holdings,
        session: *mut btcheck_session,
        bound: usize,
    ) -> btcheck_status;
    pub fn btcheck_holdings_look_at(holdings: *mut btcheck_holdings, tree: usize)
        -> btcheck_status;
    pub fn btcheck_holdings_free(holdings: *mut btcheck_holdings);

    pub fn btcheck_session_open(
        session: *mut btcheck_session,
        torrent: *const u8,
        len: usize,
        layers: bool,
    ) -> btcheck_status;
    pub fn btcheck_session_open_explained(
        session: *mut btcheck_session,
        torrent: *const u8,
        len: usize,
        layers: bool,
        refusal: *mut btcheck_refusal,
    ) -> btcheck_status;
    pub fn btcheck_session_free(session: *mut btcheck_session);
    pub fn btcheck_session_files(
        session: *mut btcheck_session,
        files: *mut u64,
        trees: *mut u64,
    ) -> btcheck_status;
    pub fn btcheck_session_file(
        session: *mut btcheck_session,
        number: usize,
        file: *mut btcheck_file,
    ) -> btcheck_status;
    pub fn btcheck_session_path(
        session: *mut btcheck_session,
        number: usize,
        room: *mut u8,
        size: usize,
        length: *mut u64,
    ) -> btcheck_status;
    pub fn btcheck_session_info_hashes(
        session: *mut btcheck_session,
        v2: *mut [u8; 32],
        v1: *mut [u8; 20],
    ) -> btcheck_status;
    pub fn btcheck_session_piece_length(
        session: *mut btcheck_session,
        length: *mut u64,
    ) -> btcheck_status;
    pub fn btcheck_session_pieces(
        session: *mut btcheck_session,
        pieces: *mut u64,
    ) -> btcheck_status;
    pub fn btcheck_session_piece(
        session: *mut btcheck_session,
        index: u32,
        piece: *mut btcheck_piece,
    ) -> btcheck_status;
    pub fn btcheck_session_file_pieces(
        session: *mut btcheck_session,
        number: usize,
        first: *mut u64,
        count: *mut u64,
    ) -> btcheck_status;
    pub fn btcheck_session_map_file(
        session: *mut btcheck_session,
        number: usize,
        offset: u64,
        length: u64,
        range: *mut btcheck_piece_range,
    ) -> btcheck_status;
    pub fn btcheck_session_file_counts(
        session: *mut btcheck_session,
        number: usize,
        marked: *mut u64,
        blocks: *mut u64,
    ) -> btcheck_status;
    pub fn btcheck_session_bitfield(
        session: *mut btcheck_session,
        room: *mut u8,
        size: usize,
        length: *mut u64,
    ) -> btcheck_status;
    pub fn btcheck_session_name(
        session: *mut btcheck_session,
        room: *mut u8,
        size: usize,
        length: *mut u64,
    ) -> btcheck_status;
    pub fn btcheck_session_is_hybrid(session: *mut btcheck_session) -> btcheck_status;
    pub fn btcheck_session_is_marked(
        session: *mut btcheck_session,
        tree: usize,
        block: u64,
    ) -> btcheck_status;
    pub fn btcheck_session_counts(
        session: *mut btcheck_session,
        tree: usize,
        known: *mut u64,
        marked: *mut u64,
    ) -> btcheck_status;
    pub fn btcheck_session_take_hashes(
        session: *mut btcheck_session,
        root: *const [u8; 32],
        base: u32,
        index: u32,
        length: u32,
        proof: u32,
        hashes: *const [u8; 32],
        count: usize,
        places: *mut u64,
    ) -> btcheck_status;
    pub fn btcheck_session_take_block(
        session: *mut btcheck_session,
        index: u32,
        begin: u32,
        bytes: *const u8,
        len: usize,
        file: *mut u64,
        block: *mut u64,
    ) -> btcheck_status;
    pub fn btcheck_session_take_piece(
        session: *mut btcheck_session,
        index: u32,
        bytes: *const u8,
        len: usize,
        file: *mut u64,
        block: *mut u64,
    ) -> btcheck_status;
    pub fn btcheck_session_take_blocks(
        session: *mut btcheck_session,
        index: u32,
        begin: u32,
        bytes: *const u8,
        len: usize,
        blocks: *mut btcheck_blocks,
    ) -> btcheck_status;
    pub fn btcheck_session_hold(
        session: *mut btcheck_session,
        holdings: *mut btcheck_holdings,
        index: u32,
        begin: u32,
        bytes: *const u8,
        len: usize,
        held: *mut btcheck_held,
    ) -> btcheck_status;
    pub fn btcheck_session_settle(
        session: *mut btcheck_session,
        holdings: *mut btcheck_holdings,
        run: *mut btcheck_run,
    ) -> btcheck_status;
    pub fn btcheck_session_held(holdings: *mut btcheck_holdings, held: *mut u64) -> btcheck_status;
    pub fn btcheck_session_frame(
        session: *mut btcheck_session,
        body: *const u8,
        len: usize,
        verdict: *mut btcheck_verdict,
    ) -> btcheck_status;
    pub fn btcheck_session_take_frame(
        session: *mut btcheck_session,
        frame: *const u8,
        len: usize,
        asked: bool,
        taken: *mut btcheck_taken,
    ) -> btcheck_status;
    pub fn btcheck_session_hold_frame(
        session: *mut btcheck_session,
        holdings: *mut btcheck_holdings,
        frame: *const u8,
        len: usize,
        asked: bool,
        taken: *mut btcheck_taken,
    ) -> btcheck_status;
    pub fn btcheck_session_want(
        session: *mut btcheck_session,
        tree: usize,
        block: u64,
        ask: *mut btcheck_ask,
    ) -> btcheck_status;
    pub fn btcheck_session_can_answer(
        session: *mut btcheck_session,
        ask: *const btcheck_ask,
    ) -> btcheck_status;
    pub fn btcheck_session_note(
        session: *mut btcheck_session,
        ask: *const btcheck_ask,
    ) -> btcheck_status;
    pub fn btcheck_session_take_answer(
        session: *mut btcheck_session,
        ask: *const btcheck_ask,
        hashes: *const [u8; 32],
        count: usize,
        places: *mut u64,
    ) -> btcheck_status;
    pub fn btcheck_session_answer(
        session: *mut btcheck_session,
        ask: *const btcheck_ask,
        room: *mut [u8; 32],
        places: usize,
        count: *mut u64,
    ) -> btcheck_status;
    pub fn btcheck_request_frame(ask: *const btcheck_ask, frame: *mut [u8; 53]);
    pub fn btcheck_reject_frame(ask: *const btcheck_ask, frame: *mut [u8; 53]);
    pub fn btcheck_session_answer_frame(
        session: *mut btcheck_session,
        ask: *const btcheck_ask,
        room: *mut u8,
        size: usize,
        length: *mut u64,
    ) -> btcheck_status;
    pub fn btcheck_session_export(
        session: *mut btcheck_session,
        cursor: *mut btcheck_cursor,
        room: *mut u8,
        size: usize,
        length: *mut u64,
    ) -> btcheck_status;
    pub fn btcheck_session_fill(
        session: *mut btcheck_session,
        tree: usize,
        layer: u32,
        hashes: *const [u8; 32],
        count: usize,
        places: *mut u64,
    ) -> btcheck_status;
    pub fn btcheck_draft_new(
        draft: *mut btcheck_draft,
        name: *const u8,
        len: usize,
        piece_length: u64,
        hybrid: bool,
    ) -> btcheck_status;
    pub fn btcheck_draft_file_new(
        file: *mut btcheck_draft_file,
        draft: *mut btcheck_draft,
    ) -> btcheck_status;
    pub fn btcheck_draft_file_push(
        file: *mut btcheck_draft_file,
        bytes: *const u8,
        len: usize,
    ) -> btcheck_status;
    pub fn btcheck_draft_add(
        draft: *mut btcheck_draft,
        file: *mut btcheck_draft_file,
        path: *const u8,
        len: usize,
    ) -> btcheck_status;
    pub fn btcheck_draft_finish(
        draft: *mut btcheck_draft,
        room: *mut u8,
        size: usize,
        length: *mut u64,
    ) -> btcheck_status;
    pub fn btcheck_draft_file_free(file: *mut btcheck_draft_file);
    pub fn btcheck_draft_free(draft: *mut btcheck_draft);
}
