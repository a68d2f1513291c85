//! An array that is lent to a call: an input, or a room between two guards. The room and its guards
//! are filled with values that no answer has, so that whatever a call writes can be seen.

/// Guard entries on each side of a room.
const GUARD: usize = 16;
/// The byte that guards are filled with, and the one that a room is filled with.
const GUARD_FILL: u8 = 0x5a;
const ROOM_FILL: u8 = 0xc3;

/// How long a room is, and for an empty one whether its pointer is NULL.
#[derive(Clone, Copy, Debug)]
pub enum Room {
    Null,
    Of(usize),
}

impl Room {
    pub fn length(self) -> usize {
        match self {
            Room::Null => 0,
            Room::Of(length) => length,
        }
    }
}

#[derive(Clone)]
pub struct Array {
    width: usize,
    entries: Vec<u32>,
    guard: usize,
    is_null: bool,
}

impl Array {
    /// An input has no guards: the caller puts it right before a page that nobody may touch. An
    /// empty one is handed over as NULL, which C programs do.
    pub fn input(width: usize, entries: Vec<u32>) -> Self {
        Array {
            width,
            is_null: entries.is_empty(),
            entries,
            guard: 0,
        }
    }

    pub fn room(width: usize, room: Room) -> Self {
        let fill = entry_of(&vec![ROOM_FILL; width]);
        Array {
            width,
            entries: vec![fill; room.length()],
            guard: GUARD,
            is_null: matches!(room, Room::Null),
        }
    }

    /// A room that holds something before the call. An empty one is handed over as NULL.
    pub fn holding(width: usize, entries: Vec<u32>) -> Self {
        Array {
            guard: GUARD,
            ..Array::input(width, entries)
        }
    }

    /// The same array with these entries at its start.
    pub fn starting_with(&self, start: &[u32]) -> Self {
        let mut array = self.clone();
        array.entries[..start.len()].copy_from_slice(start);
        array
    }

    /// What the caller is told of the array before its bytes.
    pub fn shape(&self) -> [u32; 4] {
        let (width, length) = (self.width as u32, self.entries.len() as u32);
        [width, length, self.guard as u32, u32::from(self.is_null)]
    }

    /// Every byte of the array and its guards.
    pub fn bytes(&self) -> Vec<u8> {
        let guard = vec![GUARD_FILL; self.guard * self.width];
        let mut bytes = guard.clone();
        for entry in &self.entries {
            bytes.extend_from_slice(&entry.to_le_bytes()[..self.width]);
        }
        bytes.extend_from_slice(&guard);
        bytes
    }

    /// Fails where the bytes that came back are not this array's, and names the first entry that
    /// differs.
    pub fn held_against(&self, came_back: &[u8], name: &str) -> Result<(), String> {
        let right = self.bytes();
        let differs = |byte: &usize| right[*byte] != came_back[*byte];
        let Some(byte) = (0..right.len()).find(differs) else {
            return Ok(());
        };
        let at = byte / self.width;
        let value = |bytes: &[u8]| entry_of(&bytes[at * self.width..(at + 1) * self.width]);
        let (is, should) = (value(came_back), value(&right));
        let entry = self.entry_name(at);
        Err(format!("{name}: {entry} is {is} instead of {should}"))
    }

    /// What stands at this entry, counted from the start of the guard in front.
    fn entry_name(&self, at: usize) -> String {
        if at < self.guard {
            format!("guard entry {} before the start", self.guard - at)
        } else if at < self.guard + self.entries.len() {
            format!("entry {}", at - self.guard)
        } else {
            let behind = at - self.guard - self.entries.len();
            format!("guard entry {behind} behind the end")
        }
    }
}

/// The number that these bytes are, the least byte first.
fn entry_of(bytes: &[u8]) -> u32 {
    bytes
        .iter()
        .rev()
        .fold(0, |value, byte| value << 8 | u32::from(*byte))
}
