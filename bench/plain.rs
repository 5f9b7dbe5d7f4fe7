//! The six operations by Rust's checked ones, and those on fields, blocks and levels by iterators, for the benchmark alone.
use std::slice::{from_raw_parts, from_raw_parts_mut};

// ---- the six operations

/// The 16 bytes of a checked number, and 0.
unsafe fn put(result: *mut u8, number: Option<u64>) -> u32 {
    let result = unsafe { from_raw_parts_mut(result, 16) };
    result[..8].copy_from_slice(&number.unwrap_or(0).to_le_bytes());
    result[8] = number.is_none() as u8;
    result[9..].fill(0);
    0
}

#[no_mangle]
pub unsafe extern "C" fn rust_sum(left: u64, right: u64, result: *mut u8, length: usize) -> u32 {
    if length < 16 {
        return 19;
    }
    unsafe { put(result, left.checked_add(right)) }
}

#[no_mangle]
pub unsafe extern "C" fn rust_product(left: u64, right: u64, result: *mut u8, length: usize) -> u32 {
    if length < 16 {
        return 19;
    }
    unsafe { put(result, left.checked_mul(right)) }
}

#[no_mangle]
pub unsafe extern "C" fn rust_quotient(left: u64, right: u64, result: *mut u8, length: usize) -> u32 {
    if length < 16 {
        return 19;
    }
    match left.checked_div(right) {
        None => 1,
        quotient => unsafe { put(result, quotient) },
    }
}

#[no_mangle]
pub unsafe extern "C" fn rust_remainder(left: u64, right: u64, result: *mut u8, length: usize) -> u32 {
    if length < 16 {
        return 19;
    }
    match left.checked_rem(right) {
        None => 1,
        remainder => unsafe { put(result, remainder) },
    }
}

#[no_mangle]
pub unsafe extern "C" fn rust_power(base: u64, exponent: u64, result: *mut u8, length: usize) -> u32 {
    if length < 16 {
        return 19;
    }
    // checked_pow takes an exponent of 32 bits: a larger one fits only with the bases 0 and 1
    let power = match u32::try_from(exponent) {
        Ok(exponent) => base.checked_pow(exponent),
        Err(_) => (base < 2).then_some(base),
    };
    unsafe { put(result, power) }
}

#[no_mangle]
pub unsafe extern "C" fn rust_logarithm(base: u64, argument: u64, result: *mut u8, length: usize) -> u32 {
    if length < 16 {
        return 19;
    }
    if base < 2 {
        return 2;
    }
    unsafe { put(result, Some(argument.checked_ilog(base).unwrap_or(0) as u64)) }
}

// ---- fields

#[no_mangle]
pub unsafe extern "C" fn rust_scan(
    numbers: *const u64,
    numbers_length: usize,
    marks: *const u8,
    marks_length: usize,
    answer: *mut u64,
    length: usize,
) -> u32 {
    if length < 4 {
        return 19;
    }
    let numbers = unsafe { from_raw_parts(numbers, numbers_length) };
    let marks = unsafe { from_raw_parts(marks, marks_length) };
    let (code, range) = scan(numbers, marks);
    unsafe { *(answer as *mut [u64; 4]) = range };
    code
}

/// The refusal's number or 0, and its place or the range.
fn scan(numbers: &[u64], marks: &[u8]) -> (u32, [u64; 4]) {
    if numbers.len() != marks.len() {
        return (6, [0; 4]);
    }
    if numbers.is_empty() {
        return (14, [0; 4]);
    }
    if let Some(place) = marks.iter().position(|&mark| mark != 0) {
        let code = if marks[place] == 1 && numbers[place] == 0 { 3 } else { 15 };
        return (code, [place as u64, 0, 0, 0]);
    }
    let (least, greatest) = numbers.iter().fold((u64::MAX, 0), |(least, greatest), &n| (least.min(n), greatest.max(n)));
    let width = (greatest - least).checked_ilog2().map_or(0, |log| log + 1);
    (0, [0, least, greatest, width as u64])
}

// ---- blocks

fn number(block: &[u8], place: usize) -> u64 {
    u64::from_le_bytes(block[8 + 8 * place..16 + 8 * place].try_into().unwrap())
}

/// The sum that the check is to be.
fn check_sum(block: &[u8]) -> u32 {
    block[..508].iter().zip(1u32..).map(|(&byte, weight)| weight * byte as u32).sum()
}

/// The refusal's number, or 0.
fn fault(block: &[u8]) -> u32 {
    if block.len() != 512 {
        return 16;
    }
    if check_sum(block) != u32::from_le_bytes(block[508..].try_into().unwrap()) {
        return 17;
    }
    let count = block[4] as usize;
    if count > 55 || block[5] != 1 || block[6] != 0 || block[7] != 0 {
        return 18;
    }
    if block[8 + 8 * count..448].iter().any(|&byte| byte != 0) || block[448 + count..508].iter().any(|&byte| byte != 0) {
        return 18;
    }
    let badly_marked = |(place, &mark): (usize, &u8)| mark > 1 || (mark == 1 && number(block, place) != 0);
    if block[448..448 + count].iter().enumerate().any(badly_marked) {
        return 18;
    }
    0
}

#[no_mangle]
pub unsafe extern "C" fn rust_read(
    block: *const u8,
    block_length: usize,
    numbers: *mut u64,
    numbers_length: usize,
    marks: *mut u8,
    marks_length: usize,
    answer: *mut u64,
    length: usize,
) -> u32 {
    if length < 3 {
        return 19;
    }
    let block = unsafe { from_raw_parts(block, block_length) };
    let numbers = unsafe { from_raw_parts_mut(numbers, numbers_length) };
    let marks = unsafe { from_raw_parts_mut(marks, marks_length) };
    let (code, head) = read(block, numbers, marks);
    unsafe { *(answer as *mut [u64; 3]) = head };
    code
}

fn read(block: &[u8], numbers: &mut [u64], marks: &mut [u8]) -> (u32, [u64; 3]) {
    let code = fault(block);
    if code != 0 {
        return (code, [0; 3]);
    }
    let count = block[4] as usize;
    if numbers.len() < count || marks.len() < count {
        return (19, [0; 3]);
    }
    for (into, bytes) in numbers[..count].iter_mut().zip(block[8..].chunks_exact(8)) {
        *into = u64::from_le_bytes(bytes.try_into().unwrap());
    }
    marks[..count].copy_from_slice(&block[448..448 + count]);
    let own = u32::from_le_bytes(block[..4].try_into().unwrap());
    (0, [0, own as u64, count as u64])
}

#[no_mangle]
pub unsafe extern "C" fn rust_write(
    first: u32,
    numbers: *const u64,
    numbers_length: usize,
    marks: *const u8,
    marks_length: usize,
    run: *mut u8,
    run_length: usize,
    answer: *mut u64,
    length: usize,
) -> u32 {
    if length < 2 {
        return 19;
    }
    let numbers = unsafe { from_raw_parts(numbers, numbers_length) };
    let marks = unsafe { from_raw_parts(marks, marks_length) };
    let run = unsafe { from_raw_parts_mut(run, run_length) };
    let (code, written) = write(first, numbers, marks, run);
    unsafe { *(answer as *mut [u64; 2]) = written };
    code
}

/// The refusal's number or 0, and its place or the length written.
fn write(first: u32, numbers: &[u64], marks: &[u8], run: &mut [u8]) -> (u32, [u64; 2]) {
    if numbers.len() != marks.len() {
        return (6, [0; 2]);
    }
    if numbers.is_empty() {
        return (14, [0; 2]);
    }
    let badly_marked = |(&mark, &number): (&u8, &u64)| mark > 1 || (mark == 1 && number != 0);
    if let Some(place) = marks.iter().zip(numbers).position(badly_marked) {
        return (15, [place as u64, 0]);
    }
    let blocks = numbers.len().div_ceil(55);
    if run.len() / 512 < blocks {
        return (19, [0; 2]);
    }
    if first as u64 + blocks as u64 > 1 << 32 {
        return (21, [0; 2]);
    }
    let values = numbers.chunks(55).zip(marks.chunks(55));
    for ((block, (numbers, marks)), number) in run.chunks_exact_mut(512).zip(values).zip(first..=u32::MAX) {
        lay(number, numbers, marks, block);
    }
    (0, [0, 512 * blocks as u64])
}

fn lay(number: u32, numbers: &[u64], marks: &[u8], block: &mut [u8]) {
    block.fill(0);
    block[..4].copy_from_slice(&number.to_le_bytes());
    block[4] = numbers.len() as u8;
    block[5] = 1;
    for (bytes, number) in block[8..].chunks_exact_mut(8).zip(numbers) {
        bytes.copy_from_slice(&number.to_le_bytes());
    }
    block[448..448 + marks.len()].copy_from_slice(marks);
    let sum = check_sum(block);
    block[508..].copy_from_slice(&sum.to_le_bytes());
}

#[no_mangle]
pub unsafe extern "C" fn rust_search(run: *const u8, run_length: usize, answer: *mut u64, length: usize) -> u32 {
    if length < 4 {
        return 19;
    }
    let run = unsafe { from_raw_parts(run, run_length) };
    let (code, found) = search(run);
    unsafe { *(answer as *mut [u64; 4]) = found };
    code
}

fn search(run: &[u8]) -> (u32, [u64; 4]) {
    if run.len() % 512 != 0 {
        return (16, [0; 4]);
    }
    for (position, block) in run.chunks_exact(512).enumerate() {
        let code = fault(block);
        if code != 0 {
            return (code, [position as u64, 0, 0, 0]);
        }
        let count = block[4] as usize;
        if let Some(place) = block[448..448 + count].iter().position(|&mark| mark == 1) {
            return (0, [0, 1, position as u64, place as u64]);
        }
    }
    (0, [0; 4])
}

// ---- levels

#[no_mangle]
pub unsafe extern "C" fn rust_level_scan(
    readings: *const f32,
    reading_count: usize,
    ground: *const u8,
    ground_count: usize,
    extent: *mut f32,
    extent_count: usize,
    answer: *mut u64,
    length: usize,
) -> u32 {
    if length < 1 {
        return 19;
    }
    unsafe { *answer = 0 };
    if extent_count < 2 {
        return 19;
    }
    let readings = unsafe { from_raw_parts(readings, reading_count) };
    let ground = unsafe { from_raw_parts(ground, ground_count) };
    match level_scan(readings, ground) {
        Ok(found) => {
            unsafe { *(extent as *mut [f32; 2]) = found };
            0
        }
        Err((code, place)) => {
            unsafe { *answer = place as u64 };
            code
        }
    }
}

/// The least and the greatest reading, or the refusal's number and place.
fn level_scan(readings: &[f32], ground: &[u8]) -> Result<[f32; 2], (u32, usize)> {
    if readings.len() != ground.len() {
        return Err((6, 0));
    }
    if readings.is_empty() {
        return Err((14, 0));
    }
    let (mut least, mut greatest) = (readings[0], readings[0]);
    for (place, (&x, &mark)) in readings.iter().zip(ground).enumerate() {
        if mark > 1 {
            return Err((15, place));
        }
        if !x.is_finite() {
            return Err((22, place));
        }
        if x < least {
            least = x;
        }
        if x > greatest {
            greatest = x;
        }
    }
    Ok([least, greatest])
}

#[no_mangle]
pub unsafe extern "C" fn rust_level_to_field(
    readings: *const f32,
    reading_count: usize,
    ground: *const u8,
    ground_count: usize,
    numbers: *mut u64,
    number_count: usize,
    marks: *mut u8,
    mark_count: usize,
    answer: *mut u64,
    length: usize,
) -> u32 {
    if length < 1 {
        return 19;
    }
    let readings = unsafe { from_raw_parts(readings, reading_count) };
    let ground = unsafe { from_raw_parts(ground, ground_count) };
    let numbers = unsafe { from_raw_parts_mut(numbers, number_count) };
    let marks = unsafe { from_raw_parts_mut(marks, mark_count) };
    let (code, place) = level_to_field(readings, ground, numbers, marks);
    unsafe { *answer = place as u64 };
    code
}

/// The refusal's number or 0, and its place.
fn level_to_field(readings: &[f32], ground: &[u8], numbers: &mut [u64], marks: &mut [u8]) -> (u32, usize) {
    if readings.len() != ground.len() {
        return (6, 0);
    }
    if readings.is_empty() {
        return (14, 0);
    }
    if numbers.len() < readings.len() || marks.len() < readings.len() {
        return (19, 0);
    }
    for (place, (&x, &mark)) in readings.iter().zip(ground).enumerate() {
        if mark > 1 {
            return (15, place);
        }
        if !x.is_finite() {
            return (22, place);
        }
        let n = x as u32;
        if n > 16_777_215 || n as f32 != x {
            return (23, place);
        }
    }
    for ((number, mark), &x) in numbers.iter_mut().zip(marks).zip(readings) {
        *number = x as u32 as u64;
        *mark = 0;
    }
    (0, 0)
}
