//! The C exports of the kit's static library, which the programs that call them link.

extern "C" {
    pub fn fabric_unpack(file: *const u8, file_len: usize, table: *mut u8, table_len: usize)
        -> u32;
    pub fn fabric_pack(
        colours: u64,
        channels: u64,
        table: *const u8,
        table_len: usize,
        file: *mut u8,
        file_len: usize,
    ) -> u32;
    pub fn fabric_start(
        fabric: *const u8,
        fabric_len: usize,
        state: *mut u8,
        state_len: usize,
    ) -> u32;
    pub fn fabric_step(
        fabric: *const u8,
        fabric_len: usize,
        state: *mut u8,
        state_len: usize,
        choices: *const u8,
        choices_len: usize,
        moves: *mut u8,
        moves_len: usize,
    ) -> u32;
    pub fn fabric_run(
        fabric: *const u8,
        fabric_len: usize,
        state: *mut u8,
        state_len: usize,
        choices: *const u8,
        choices_len: usize,
    ) -> u32;
    pub fn fabric_check(
        fabric: *const u8,
        fabric_len: usize,
        proposal: *const u8,
        proposal_len: usize,
        weights: *mut u8,
        weights_len: usize,
    ) -> u32;
    pub fn fabric_check_many(
        fabric: *const u8,
        fabric_len: usize,
        proposals: *const u8,
        proposals_len: usize,
        results: *mut u8,
        results_len: usize,
    ) -> u32;
    pub fn fabric_ceiling(
        fabric: *const u8,
        fabric_len: usize,
        proposal: *const u8,
        proposal_len: usize,
        queue: u64,
        colour: u64,
    ) -> u32;
    pub fn fabric_reach(
        fabric: *const u8,
        fabric_len: usize,
        sets: *mut u8,
        sets_len: usize,
    ) -> u32;
}

// The sister calls: they take what their call takes and write nothing.
extern "C" {
    pub fn fabric_unpack_place(
        file: *const u8,
        file_len: usize,
        table: *const u8,
        table_len: usize,
    ) -> u64;
    pub fn fabric_unpack_colours(
        file: *const u8,
        file_len: usize,
        table: *const u8,
        table_len: usize,
    ) -> u64;
    pub fn fabric_unpack_channels(
        file: *const u8,
        file_len: usize,
        table: *const u8,
        table_len: usize,
    ) -> u64;
    pub fn fabric_pack_place(
        colours: u64,
        channels: u64,
        table: *const u8,
        table_len: usize,
        file: *const u8,
        file_len: usize,
    ) -> u64;
    pub fn fabric_start_place(
        fabric: *const u8,
        fabric_len: usize,
        state: *const u8,
        state_len: usize,
    ) -> u64;
    pub fn fabric_step_place(
        fabric: *const u8,
        fabric_len: usize,
        state: *const u8,
        state_len: usize,
        choices: *const u8,
        choices_len: usize,
        moves: *const u8,
        moves_len: usize,
    ) -> u64;
    pub fn fabric_run_place(
        fabric: *const u8,
        fabric_len: usize,
        state: *const u8,
        state_len: usize,
        choices: *const u8,
        choices_len: usize,
    ) -> u64;
    pub fn fabric_check_place(
        fabric: *const u8,
        fabric_len: usize,
        proposal: *const u8,
        proposal_len: usize,
        weights: *const u8,
        weights_len: usize,
    ) -> u64;
    pub fn fabric_check_constant(
        fabric: *const u8,
        fabric_len: usize,
        proposal: *const u8,
        proposal_len: usize,
        weights: *const u8,
        weights_len: usize,
    ) -> i64;
    pub fn fabric_check_many_place(
        fabric: *const u8,
        fabric_len: usize,
        proposals: *const u8,
        proposals_len: usize,
        results: *const u8,
        results_len: usize,
    ) -> u64;
    pub fn fabric_ceiling_place(
        fabric: *const u8,
        fabric_len: usize,
        proposal: *const u8,
        proposal_len: usize,
        queue: u64,
        colour: u64,
    ) -> u64;
    pub fn fabric_ceiling_value(
        fabric: *const u8,
        fabric_len: usize,
        proposal: *const u8,
        proposal_len: usize,
        queue: u64,
        colour: u64,
    ) -> u64;
    pub fn fabric_reach_place(
        fabric: *const u8,
        fabric_len: usize,
        sets: *const u8,
        sets_len: usize,
    ) -> u64;
}
