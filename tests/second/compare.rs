//! What different voices answer and write for one call is compared byte by byte.

use crate::call::{Call, Outcome, Use, Voice};
use crate::play::Explored;

/// Enough to see what is wrong; further ones are counted.
pub const MOST_PRINTED: u64 = 20;

/// The first thing in which two differ, if any.
fn difference(call: &Call, first: &Outcome, other: &Outcome) -> Option<String> {
    if first.result != other.result {
        return Some(format!("the result: {} and {}", first.result, other.result));
    }
    for (place, (name, _)) in call.operation.buffers.iter().enumerate() {
        let (one, two) = (&first.buffers[place], &other.buffers[place]);
        if let Some(at) = (0..one.len()).find(|at| one[*at] != two[*at]) {
            return Some(format!("byte {at} of {name}: {} and {}", one[at], two[at]));
        }
    }
    let known = first.largest != 0 && other.largest != 0;
    (known && first.largest != other.largest)
        .then(|| format!("the largest set: {} and {}", first.largest, other.largest))
}

/// What is wrong with the answers to a call, if anything is: the first in which two differ, or what the
/// call's own property finds. The oracles leave a buffer that is only read as it was.
pub fn fault(call: &Call, voices: &[Voice], explored: &mut Explored) -> Option<String> {
    let first = &voices[0];
    for other in &voices[1..] {
        if let Some(what) = difference(call, &first.outcome, &other.outcome) {
            return Some(format!("{} and {} differ in {what}", first.name, other.name));
        }
    }
    let found = (call.operation.property)(call, &first.outcome, explored);
    found.into_iter().next().map(|(check, reason)| format!("{check}: {reason}"))
}

/// One digit a byte, as document 01 writes tables; two in base 16 where a byte is over 9.
pub fn digits(bytes: &[u8]) -> String {
    let small = bytes.iter().all(|byte| *byte <= 9);
    let digit = |byte: &u8| if small { format!("{byte}") } else { format!("{byte:02x}") };
    let record = |part: &[u8]| part.iter().map(digit).collect::<String>();
    bytes.chunks(4).map(record).collect::<Vec<_>>().join(" ")
}

fn print_voice(call: &Call, voice: &Voice) {
    println!("  {}: result {}", voice.name, voice.outcome.result);
    for (place, (name, _)) in call.operation.buffers.iter().enumerate() {
        let (before, after) = (&call.buffers[place].bytes, &voice.outcome.buffers[place]);
        if let Some(last) = (0..before.len()).rfind(|at| before[*at] != after[*at]) {
            println!("    {name} begins {}", digits(&after[..=last]));
        }
    }
}

/// The call, its numbers and buffers, and every answer.
pub fn print_fault(call: &Call, voices: &[Voice], reason: &str) {
    println!("FAILED: {reason}");
    let numbers = call.operation.numbers.iter().zip(&call.numbers);
    let numbers: Vec<String> = numbers.map(|(name, number)| format!(" {name} {number}")).collect();
    println!("  {}{} {:?}", call.operation.name, numbers.concat(), call.notes);
    for ((name, used), buffer) in call.operation.buffers.iter().zip(&call.buffers) {
        match used {
            Use::Written => println!("  {name}: {} bytes, {:?}", buffer.bytes.len(), buffer.layout),
            _ => println!("  {name}: {}, {:?}", digits(&buffer.bytes), buffer.layout),
        }
    }
    voices.iter().for_each(|voice| print_voice(call, voice));
}
