//! Calls that write their answer at the start of a room.

/// What a room held before.
const BEFORE: u8 = 7;

/// The bytes that a call writes into a room of this length. It touches no byte behind them, and none if it is refused.
pub fn in_room(
    room: usize,
    call: impl FnOnce(&mut [u8]) -> Result<usize, u32>,
) -> Result<Vec<u8>, u32> {
    let mut given = vec![BEFORE; room];
    let length = call(&mut given);
    let untouched = &given[length.unwrap_or(0)..];
    assert!(untouched.iter().all(|&byte| byte == BEFORE));
    length.map(|length| given[..length].to_vec())
}

/// Does a call give this answer in a room just as long, in a longer one and, with 12, in one that is a byte too short? A refusal is given whatever the room.
pub fn agrees(
    expected: impl Fn(usize) -> Result<Vec<u8>, u32>,
    call: impl Fn(&mut [u8]) -> Result<usize, u32>,
) -> bool {
    let length = expected(usize::MAX).map_or(0, |answer| answer.len());
    let rooms = [0, length.saturating_sub(1), length, length + 9];
    rooms
        .into_iter()
        .all(|room| in_room(room, &call) == expected(room))
}
