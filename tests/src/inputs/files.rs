//! The registers of the folder examples, each with the listing that lies beside it.

pub struct File {
    pub name: &'static str,
    pub text: &'static [u8],
    pub listing: &'static [u8],
}

pub const FILES: [File; 5] = [
    File {
        name: "game",
        text: include_bytes!("../../../examples/game.txt"),
        listing: include_bytes!("../../../examples/game.listing"),
    },
    File {
        name: "quilt",
        text: include_bytes!("../../../examples/quilt.txt"),
        listing: include_bytes!("../../../examples/quilt.listing"),
    },
    File {
        name: "class",
        text: include_bytes!("../../../examples/class.txt"),
        listing: include_bytes!("../../../examples/class.listing"),
    },
    File {
        name: "unread",
        text: include_bytes!("../../../examples/unread.txt"),
        listing: include_bytes!("../../../examples/unread.listing"),
    },
    File {
        name: "acquisitions",
        text: include_bytes!("../../../examples/acquisitions.txt"),
        listing: include_bytes!("../../../examples/acquisitions.listing"),
    },
];
