//! The exports of the static library `bench/calls`.

unsafe extern "C" {
    pub safe fn ours_plaintext(bytes: *const u8, len: usize, times: usize) -> u64;
    pub safe fn ours_many(bytes: *const u8, len: usize, times: usize) -> u64;
    pub safe fn ours_raw_record(bytes: *const u8, len: usize, times: usize) -> u64;
    pub safe fn ours_handshake(bytes: *const u8, len: usize, times: usize) -> u64;
    pub safe fn ours_extensions(bytes: *const u8, len: usize, times: usize) -> u64;
    pub safe fn ours_client_extensions(bytes: *const u8, len: usize, times: usize) -> u64;
    pub safe fn ours_server_extensions(bytes: *const u8, len: usize, times: usize) -> u64;
    pub safe fn ours_dtls_record(bytes: *const u8, len: usize, times: usize) -> u64;
    pub safe fn ours_dtls_records(bytes: *const u8, len: usize, times: usize) -> u64;
    pub safe fn ours_dtls_handshake(bytes: *const u8, len: usize, times: usize) -> u64;
    pub safe fn ours_dh(bytes: *const u8, len: usize, times: usize) -> u64;
    pub safe fn ours_ecdh(bytes: *const u8, len: usize, times: usize) -> u64;
    pub safe fn ours_signed(bytes: *const u8, len: usize, times: usize) -> u64;
    pub safe fn ours_timestamps(bytes: *const u8, len: usize, times: usize) -> u64;
    pub safe fn ours_view_hello(bytes: *const u8, len: usize, times: usize) -> u64;
    pub safe fn ours_view_name(bytes: *const u8, len: usize, times: usize) -> u64;
    pub safe fn ours_view_walk(bytes: *const u8, len: usize, times: usize) -> u64;
    pub safe fn ours_view_types(bytes: *const u8, len: usize, times: usize) -> u64;
    pub safe fn ours_serialize(bytes: *const u8, len: usize, times: usize) -> u64;
    pub safe fn ours_gen(bytes: *const u8, len: usize, times: usize) -> u64;
    pub safe fn ours_gen_extensions(bytes: *const u8, len: usize, times: usize) -> u64;
    pub safe fn ours_text(bytes: *const u8, len: usize, out: *mut u8, room: usize) -> usize;
    pub safe fn ours_transitions(
        bytes: *const u8,
        len: usize,
        sides: *const u8,
        count: usize,
        times: usize,
    ) -> u64;
    pub safe fn ours_updates(
        bytes: *const u8,
        len: usize,
        sides: *const u8,
        count: usize,
        times: usize,
    ) -> u64;
    pub safe fn ours_runs(
        bytes: *const u8,
        len: usize,
        sides: *const u8,
        count: usize,
        times: usize,
    ) -> u64;
    pub safe fn ours_flows(
        bytes: *const u8,
        len: usize,
        sides: *const u8,
        count: usize,
        times: usize,
    ) -> u64;
    pub safe fn ours_events(
        bytes: *const u8,
        len: usize,
        sides: *const u8,
        count: usize,
        times: usize,
    ) -> u64;
    pub safe fn ours_stream(bytes: *const u8, len: usize, piece: usize) -> u64;
    pub safe fn ours_records(bytes: *const u8, len: usize, piece: usize) -> u64;
    pub safe fn ours_messages(bytes: *const u8, len: usize, piece: usize) -> u64;
    pub safe fn ours_datagrams(bytes: *const u8, len: usize, size: usize) -> u64;
}
