use std::error::Error;
use std::fmt;

use btcheck_sys as sys;

/// An enum of refusals with their numbers and their sentences, which are their documentation too. A variant with a part
/// says that part at the end of its sentence.
macro_rules! refusals {
    ($(#[$doc:meta])* $name:ident { $($variant:ident $(($part:ident: $kind:ty))? = $number:literal, $text:literal;)* }) => {
        $(#[$doc])*
        #[derive(Clone, Copy, Debug, PartialEq, Eq, Hash)]
        #[non_exhaustive]
        pub enum $name {
            $(#[doc = $text] $variant $(($kind))?,)*
        }

        impl $name {
            /// The refusal of this number, with what the library says of it.
            pub(crate) fn of(number: u32, _more: &sys::btcheck_refusal) -> Option<Self> {
                match number {
                    $($number => Some($name::$variant $((<$kind>::of(_more)))?),)*
                    _ => None,
                }
            }

            /// The number under which the program prints it.
            pub fn number(self) -> u32 {
                match self {
                    $($name::$variant { .. } => $number,)*
                }
            }
        }

        impl fmt::Display for $name {
            fn fmt(&self, f: &mut fmt::Formatter<'_>) -> fmt::Result {
                match self {
                    $($name::$variant $(($part))? => {
                        $(return write!(f, "{}: {}.", $text.trim_end_matches('.'), $part);)?
                        #[allow(unreachable_code)]
                        f.write_str($text)
                    })*
                }
            }
        }

        impl Error for $name {}
    };
}

/// An enum of names, each with its number in `btcheck.h`.
macro_rules! names {
    ($(#[$doc:meta])* $name:ident { $($variant:ident = $number:path, $text:literal;)* }) => {
        $(#[$doc])*
        #[derive(Clone, Copy, Debug, PartialEq, Eq, Hash)]
        #[non_exhaustive]
        pub enum $name {
            $(#[doc = concat!("`", $text, "`.")] $variant,)*
            /// One that only a later library has.
            Other(u32),
        }

        impl $name {
            fn numbered(number: u32) -> Self {
                match number {
                    $($number => $name::$variant,)*
                    _ => $name::Other(number),
                }
            }
        }

        impl fmt::Display for $name {
            fn fmt(&self, f: &mut fmt::Formatter<'_>) -> fmt::Result {
                match self {
                    $($name::$variant => f.write_str($text),)*
                    $name::Other(number) => write!(f, "number {number}"),
                }
            }
        }
    };
}

names! {
    /// What the first fault of bytes is that are no canonical bencoding, by the name that `btcheck show` prints.
    FaultKind {
        Truncated = sys::BTCHECK_FAULT_TRUNCATED, "Truncated";
        BadStart = sys::BTCHECK_FAULT_BAD_START, "BadStart";
        BadInteger = sys::BTCHECK_FAULT_BAD_INTEGER, "BadInteger";
        IntegerRange = sys::BTCHECK_FAULT_INTEGER_RANGE, "IntegerRange";
        BadLength = sys::BTCHECK_FAULT_BAD_LENGTH, "BadLength";
        KeyOrder = sys::BTCHECK_FAULT_KEY_ORDER, "KeyOrder";
        Trailing = sys::BTCHECK_FAULT_TRAILING, "Trailing";
        TooDeep = sys::BTCHECK_FAULT_TOO_DEEP, "TooDeep";
    }
}

names! {
    /// A key of a torrent file, as it spells it; `top` is the top value itself.
    Key {
        Top = sys::BTCHECK_KEY_TOP, "top";
        Info = sys::BTCHECK_KEY_INFO, "info";
        MetaVersion = sys::BTCHECK_KEY_META_VERSION, "meta version";
        FileTree = sys::BTCHECK_KEY_FILE_TREE, "file tree";
        Name = sys::BTCHECK_KEY_NAME, "name";
        PieceLength = sys::BTCHECK_KEY_PIECE_LENGTH, "piece length";
        PieceLayers = sys::BTCHECK_KEY_PIECE_LAYERS, "piece layers";
    }
}

impl Key {
    fn of(more: &sys::btcheck_refusal) -> Self {
        Key::numbered(more.key)
    }
}

/// A fault of bencoding, and where the item begins that has it, in bytes.
#[derive(Clone, Copy, Debug, PartialEq, Eq, Hash)]
pub struct Fault {
    /// What is wrong.
    pub kind: FaultKind,
    /// Where the failing item begins.
    pub offset: u64,
}

impl Fault {
    fn of(more: &sys::btcheck_refusal) -> Self {
        Fault {
            kind: FaultKind::numbered(more.fault),
            offset: more.offset,
        }
    }
}

impl fmt::Display for Fault {
    fn fmt(&self, f: &mut fmt::Formatter<'_>) -> fmt::Result {
        write!(f, "{} at byte {}", self.kind, self.offset)
    }
}

refusals! {
    /// Why the bytes are no torrent that can be checked; `number` is what `btcheck show` prints.
    TorrentRefusal {
        TooLarge = 1, "The torrent file has more than 67,108,864 bytes.";
        NotBencode(fault: Fault) = 2, "The bytes are not canonical bencoding.";
        Missing(key: Key) = 3, "A key of the torrent is missing.";
        WrongType(key: Key) = 4, "A value of the torrent is of another kind.";
        Version = 5, "The meta version is not 2.";
        PieceLength = 6, "The piece length is not a power of two from 16,384 to 2^30.";
        Shape = 7, "The file tree has a wrong shape.";
        Path = 8, "A component of a path is ., .. or not UTF-8, or has a / or a zero byte.";
        Symlink = 9, "A file is a symlink.";
        Length = 10, "The length of a file is missing, no integer, below 0 or above 2^46.";
        Root = 11, "The root of a file is missing, or has not 32 bytes.";
        RootReused = 12, "Two files have one root and different lengths.";
        NoFiles = 13, "There is no file.";
        TooManyPieces = 14, "The files have more than 2^32 - 1 pieces.";
        LayerMissing = 15, "A file longer than a piece has no piece layer.";
        LayerSize = 16, "A piece layer has not one hash for each piece.";
        LayerMismatch = 17, "The tree over a piece layer has another root.";
        HybridFiles = 18, "The version 1 list is malformed, or is not that of the file tree.";
        HybridAlign = 19, "A file is not at its place in the version 1 stream.";
        HybridPieces = 20, "The version 1 digests are not one for each piece of the stream.";
        NoMemory = 21, "Memory for the torrent was refused.";
        PathClash = 22, "The path is there already, or one of two paths is a prefix of the other.";
    }
}

refusals! {
    /// Why a hashes message is refused; `number` is n of Hn.
    HashRefusal {
        UnknownRoot = 1, "No tree of the torrent has this root.";
        BadRange = 2, "The hashes are for no range of the tree.";
        BadCount = 3, "The number of hashes is wrong.";
        BadPad = 4, "A hash past the end of the file is not the one over pads.";
        Unanchored = 5, "The hashes lead to no known node.";
        Mismatch = 6, "A hash differs from a known one.";
        NoMemory = 7, "Memory for the hashes was refused.";
        Unasked = 8, "Nobody asked for the hashes.";
    }
}

refusals! {
    /// Why a block or a piece is refused; `number` is n of Pn.
    BlockRefusal {
        BadPlace = 1, "No block or piece lies there.";
        BadSize = 2, "The bytes are not as many as the block or the piece has.";
        Unproved = 3, "The hash that covers the block or the piece is not known yet.";
        BadBlock = 4, "The bytes are not that block or piece of the torrent.";
    }
}
