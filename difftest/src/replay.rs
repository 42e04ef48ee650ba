//! What the replay program writes on both streams.

use crate::show;
use std::process::Stdio;

/// Runs replay on its input and holds both streams against the reference's.
pub fn differs(input: &[u8], replayed: &mut [u64; 2]) -> Option<String> {
    let expected = reference::replay(input);
    replayed[usize::from(expected.output.is_empty())] += 1;
    let output = match show::output("replay", input, Stdio::piped()) {
        Err(error) => return Some(format!("replay did not run: {error}")),
        Ok(output) => output,
    };
    let error = String::from_utf8_lossy(&output.stderr);
    if error != expected.error {
        return Some(format!("replay says {error:?}, the reference {:?}", expected.error));
    }
    let (ours, theirs) = (output.stdout, expected.output);
    if ours.len() != theirs.len() {
        return Some(format!("replay writes {} bytes, the reference {}", ours.len(), theirs.len()));
    }
    let at = (0..ours.len()).find(|&at| ours[at] != theirs[at])?;
    let (left, right) = (ours[at], theirs[at]);
    Some(format!("byte {at} of the snapshot is {left:02X} from replay, {right:02X} from the reference"))
}
