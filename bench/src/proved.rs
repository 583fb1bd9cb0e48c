//! The proved entries, called as C calls them, with answers as six numbers.

use reference::fit::Change;
use reference::{Party, Position};

use crate::answers::{refused, stage_numbers, Answer, PLACES};

/// A refusal's number and index, or 0 and 0.
#[repr(C)]
struct Refusal {
    number: u32,
    index: usize,
}

/// The six numbers of an answer, or of the refusal in its place.
fn told(refusal: Refusal, answer: Answer) -> Answer {
    match refusal.number {
        0 => answer,
        number => refused(number, refusal.index),
    }
}

extern "C" {
    fn spdz_send(
        parties: usize,
        me: usize,
        circuit: *const u32,
        circuit_len: usize,
        prep: *const u32,
        prep_len: usize,
        inputs: *const u32,
        inputs_len: usize,
        scratch: *mut u32,
        scratch_len: usize,
        gate: usize,
        half: u32,
        round: u32,
        held: u32,
        coefficients: *const u32,
        coefficients_len: usize,
        nonce: *const u8,
        nonce_len: usize,
        out: *mut u32,
        out_len: usize,
        answer: *mut u64,
        answer_len: usize,
    ) -> Refusal;

    fn spdz_receive(
        parties: usize,
        me: usize,
        circuit: *const u32,
        circuit_len: usize,
        prep: *const u32,
        prep_len: usize,
        inputs: *const u32,
        inputs_len: usize,
        scratch: *mut u32,
        scratch_len: usize,
        gate: usize,
        half: u32,
        round: u32,
        held: u32,
        heard: *const u32,
        heard_len: usize,
        answer: *mut u64,
        answer_len: usize,
    ) -> Refusal;

    fn spdz_joint_run(
        parties: usize,
        circuit: *const u32,
        circuit_len: usize,
        preps: *const u32,
        preps_len: usize,
        inputs: *const u32,
        inputs_len: usize,
        scratch: *mut u32,
        scratch_len: usize,
        coefficients: *const u32,
        coefficients_len: usize,
        nonces: *const u8,
        nonces_len: usize,
        transcript: *mut u32,
        transcript_len: usize,
        outputs: *mut u32,
        outputs_len: usize,
        answer: *mut u64,
        answer_len: usize,
    ) -> Refusal;

    fn spdz_read_sheet(
        parties: usize,
        text: *const u8,
        text_len: usize,
        circuit: *mut u32,
        circuit_len: usize,
        answer: *mut u64,
        answer_len: usize,
    ) -> Refusal;

    fn spdz_write_sheet(
        parties: usize,
        circuit: *const u32,
        circuit_len: usize,
        text: *mut u8,
        text_len: usize,
        answer: *mut u64,
        answer_len: usize,
    ) -> Refusal;

    fn spdz_will_fit(
        parties: usize,
        circuit: *const u32,
        circuit_len: usize,
        ranges: *const u32,
        ranges_len: usize,
        changes: u32,
        gate: usize,
        amount: u32,
        intervals: *mut u32,
        intervals_len: usize,
        moves: *mut u32,
        moves_len: usize,
        answer: *mut u64,
        answer_len: usize,
    ) -> Refusal;

    fn spdz_scale(values: *mut u32, values_len: usize, by: u32) -> u32;
}

pub fn send(
    lent: &Party<'_>,
    scratch: &mut [u32],
    at: Position,
    coefficients: &[u32],
    nonce: &[u8],
    out: &mut [u32],
) -> Answer {
    let [half, round] = stage_numbers(at.stage);
    let mut answer = [0; PLACES];
    let refusal = unsafe {
        spdz_send(
            lent.parties as usize,
            lent.party as usize,
            lent.circuit.as_ptr(),
            lent.circuit.len(),
            lent.prep.as_ptr(),
            lent.prep.len(),
            lent.inputs.as_ptr(),
            lent.inputs.len(),
            scratch.as_mut_ptr(),
            scratch.len(),
            at.gate as usize,
            half,
            round,
            at.held,
            coefficients.as_ptr(),
            coefficients.len(),
            nonce.as_ptr(),
            nonce.len(),
            out.as_mut_ptr(),
            out.len(),
            answer.as_mut_ptr(),
            answer.len(),
        )
    };
    told(refusal, answer)
}

pub fn receive(lent: &Party<'_>, scratch: &mut [u32], at: Position, heard: &[u32]) -> Answer {
    let [half, round] = stage_numbers(at.stage);
    let mut answer = [0; PLACES];
    let refusal = unsafe {
        spdz_receive(
            lent.parties as usize,
            lent.party as usize,
            lent.circuit.as_ptr(),
            lent.circuit.len(),
            lent.prep.as_ptr(),
            lent.prep.len(),
            lent.inputs.as_ptr(),
            lent.inputs.len(),
            scratch.as_mut_ptr(),
            scratch.len(),
            at.gate as usize,
            half,
            round,
            at.held,
            heard.as_ptr(),
            heard.len(),
            answer.as_mut_ptr(),
            answer.len(),
        )
    };
    told(refusal, answer)
}

#[allow(clippy::too_many_arguments)]
pub fn joint_run(
    parties: u32,
    circuit: &[u32],
    preps: &[u32],
    inputs: &[u32],
    scratch: &mut [u32],
    coefficients: &[u32],
    nonces: &[u8],
    transcript: &mut [u32],
    outputs: &mut [u32],
) -> Answer {
    let mut answer = [0; PLACES];
    let refusal = unsafe {
        spdz_joint_run(
            parties as usize,
            circuit.as_ptr(),
            circuit.len(),
            preps.as_ptr(),
            preps.len(),
            inputs.as_ptr(),
            inputs.len(),
            scratch.as_mut_ptr(),
            scratch.len(),
            coefficients.as_ptr(),
            coefficients.len(),
            nonces.as_ptr(),
            nonces.len(),
            transcript.as_mut_ptr(),
            transcript.len(),
            outputs.as_mut_ptr(),
            outputs.len(),
            answer.as_mut_ptr(),
            answer.len(),
        )
    };
    told(refusal, answer)
}

pub fn read_sheet(parties: u32, text: &[u8], circuit: &mut [u32]) -> Answer {
    let mut answer = [0; PLACES];
    let refusal = unsafe {
        spdz_read_sheet(
            parties as usize,
            text.as_ptr(),
            text.len(),
            circuit.as_mut_ptr(),
            circuit.len(),
            answer.as_mut_ptr(),
            answer.len(),
        )
    };
    told(refusal, answer)
}

pub fn write_sheet(parties: u32, circuit: &[u32], text: &mut [u8]) -> Answer {
    let mut answer = [0; PLACES];
    let refusal = unsafe {
        spdz_write_sheet(
            parties as usize,
            circuit.as_ptr(),
            circuit.len(),
            text.as_mut_ptr(),
            text.len(),
            answer.as_mut_ptr(),
            answer.len(),
        )
    };
    told(refusal, answer)
}

pub fn fit(
    parties: u32,
    circuit: &[u32],
    ranges: &[u32],
    change: Option<Change>,
    intervals: &mut [u32],
    moves: &mut [u32],
) -> Answer {
    let mut answer = [0; PLACES];
    // Of no change, gate and amount are of no matter.
    let of = change.unwrap_or(Change { gate: 0, amount: 0 });
    let refusal = unsafe {
        spdz_will_fit(
            parties as usize,
            circuit.as_ptr(),
            circuit.len(),
            ranges.as_ptr(),
            ranges.len(),
            change.is_some().into(),
            of.gate as usize,
            of.amount,
            intervals.as_mut_ptr(),
            intervals.len(),
            moves.as_mut_ptr(),
            moves.len(),
            answer.as_mut_ptr(),
            answer.len(),
        )
    };
    told(refusal, answer)
}

/// Whether the numbers were scaled.
pub fn scale(values: &mut [u32], by: u32) -> bool {
    unsafe { spdz_scale(values.as_mut_ptr(), values.len(), by) == 0 }
}
