//! The C interface, as `include/pokchrei.h` declares it.

/// The calls of the builder that take no record.
pub type BuildCall = unsafe extern "C" fn(
    length: &mut u16,
    depth: &mut u16,
    parts: &mut [u8; 32],
    fields: &mut [u16; 32],
    starts: &mut [u16; 32],
    buffer: *mut u8,
    buffer_length: usize,
) -> u8;

/// The calls of the builder that take one.
pub type RecordCall = unsafe extern "C" fn(
    length: &mut u16,
    depth: &mut u16,
    parts: &mut [u8; 32],
    fields: &mut [u16; 32],
    starts: &mut [u16; 32],
    buffer: *mut u8,
    buffer_length: usize,
    kind: u8,
    body: &[u8; 3],
    operands: &[u8; 3],
    bases: &[u8; 3],
    indexes: &[u8; 3],
    scales: &[i16; 3],
    numbers: &[u64; 3],
    offsets: &[i64; 3],
) -> u8;

extern "C" {
    pub fn pokchrei_check_code(code: *const u8, code_length: usize, place: &mut usize) -> u8;

    pub fn pokchrei_check_cells(
        addresses: *const u64,
        address_count: usize,
        tags: *const u8,
        tag_count: usize,
        values: *const u64,
        value_count: usize,
        index: &mut usize,
    ) -> u8;

    pub fn pokchrei_run(
        code: *const u8,
        code_length: usize,
        addresses: *const u64,
        address_count: usize,
        tags: *const u8,
        tag_count: usize,
        values: *mut u64,
        value_count: usize,
        regs: &mut [u64; 16],
        xmms: &mut [u32; 64],
        flags: &mut u64,
        fill: u64,
        fuel: u32,
        limit: u64,
        evaluation: u8,
        number: &mut u8,
        place: &mut usize,
        steps: &mut u64,
        marked: &mut u8,
        mark: &mut usize,
        opened: &mut u8,
    ) -> u8;

    pub fn pokchrei_least_fuel(
        code: *const u8,
        code_length: usize,
        addresses: *const u64,
        address_count: usize,
        tags: *const u8,
        tag_count: usize,
        values: *mut u64,
        value_count: usize,
        regs: &mut [u64; 16],
        xmms: &mut [u32; 64],
        flags: &mut u64,
        fill: u64,
        cap: u32,
        limit: u64,
        evaluation: u8,
        fuel: &mut u32,
        number: &mut u8,
        place: &mut usize,
        steps: &mut u64,
        marked: &mut u8,
        mark: &mut usize,
        opened: &mut u8,
    ) -> u8;

    pub fn pokchrei_job(
        input: *const u8,
        input_length: usize,
        out: &mut [u8; crate::JOB_ROOM],
    ) -> usize;

    pub fn pokchrei_begin(
        length: &mut u16,
        depth: &mut u16,
        parts: &mut [u8; 32],
        fields: &mut [u16; 32],
        starts: &mut [u16; 32],
    );

    pub fn pokchrei_open_block(
        length: &mut u16,
        depth: &mut u16,
        parts: &mut [u8; 32],
        fields: &mut [u16; 32],
        starts: &mut [u16; 32],
        buffer: *mut u8,
        buffer_length: usize,
    ) -> u8;

    pub fn pokchrei_open_if_else(
        length: &mut u16,
        depth: &mut u16,
        parts: &mut [u8; 32],
        fields: &mut [u16; 32],
        starts: &mut [u16; 32],
        buffer: *mut u8,
        buffer_length: usize,
        kind: u8,
        body: &[u8; 3],
        operands: &[u8; 3],
        bases: &[u8; 3],
        indexes: &[u8; 3],
        scales: &[i16; 3],
        numbers: &[u64; 3],
        offsets: &[i64; 3],
    ) -> u8;

    pub fn pokchrei_open_while(
        length: &mut u16,
        depth: &mut u16,
        parts: &mut [u8; 32],
        fields: &mut [u16; 32],
        starts: &mut [u16; 32],
        buffer: *mut u8,
        buffer_length: usize,
        kind: u8,
        body: &[u8; 3],
        operands: &[u8; 3],
        bases: &[u8; 3],
        indexes: &[u8; 3],
        scales: &[i16; 3],
        numbers: &[u64; 3],
        offsets: &[i64; 3],
    ) -> u8;

    pub fn pokchrei_add(
        length: &mut u16,
        depth: &mut u16,
        parts: &mut [u8; 32],
        fields: &mut [u16; 32],
        starts: &mut [u16; 32],
        buffer: *mut u8,
        buffer_length: usize,
        kind: u8,
        body: &[u8; 3],
        operands: &[u8; 3],
        bases: &[u8; 3],
        indexes: &[u8; 3],
        scales: &[i16; 3],
        numbers: &[u64; 3],
        offsets: &[i64; 3],
    ) -> u8;

    pub fn pokchrei_close(
        length: &mut u16,
        depth: &mut u16,
        parts: &mut [u8; 32],
        fields: &mut [u16; 32],
        starts: &mut [u16; 32],
        buffer: *mut u8,
        buffer_length: usize,
    ) -> u8;
}
