use wagtenib_sys::code;

/// Declares the errors with their numbers in C and their words.
macro_rules! errors {
    ($($name:ident = $code:ident, $words:literal;)*) => {
        /// Why the library refuses something.
        #[derive(Clone, Copy, Debug, PartialEq, Eq, Hash)]
        #[non_exhaustive]
        pub enum Error {
            $(#[doc = $words] $name,)*
        }

        impl Error {
            /// Returns the number of the error in C (`wagtenib.h`).
            #[must_use]
            pub fn code(self) -> u32 {
                match self {
                    $(Error::$name => code::$code,)*
                }
            }

            fn of(number: u32) -> Option<Error> {
                match number {
                    $(code::$code => Some(Error::$name),)*
                    _ => None,
                }
            }

            fn words(self) -> &'static str {
                match self {
                    $(Error::$name => $words,)*
                }
            }
        }
    };
}

errors! {
    IndexOutOfRange = INDEX_OUT_OF_RANGE, "the index of the leaf is not below the size of the tree";
    PathTooLong = PATH_TOO_LONG, "the proof has more hashes than the tree has levels for it";
    PathTooShort = PATH_TOO_SHORT, "the proof has fewer hashes than the tree has levels for it";
    RootMismatch = ROOT_MISMATCH, "the proof leads to another root";
    EmptyPath = EMPTY_PATH, "the consistency proof has no hashes";
    FirstMismatch = FIRST_MISMATCH, "the consistency proof leads to another first root";
    SizesOutOfRange = SIZES_OUT_OF_RANGE, "the sizes of a consistency proof must be 0 < first < second";
    OutOfMemory = OUT_OF_MEMORY, "out of memory (malloc refused)";
    NoRoom = NO_ROOM, "the memory for the reply is too small";
    Truncated = TRUNCATED, "the leaf ends before a field is whole";
    BadVersion = BAD_VERSION, "the leaf's version is not 0 (v1)";
    BadLeafType = BAD_LEAF_TYPE, "the leaf's type is not 0 (timestamped_entry)";
    BadEntryType = BAD_ENTRY_TYPE, "the leaf's entry type is neither 0 (x509_entry) nor 1 (precert_entry)";
    EmptyVector = EMPTY_VECTOR, "the leaf's certificate or TBSCertificate has no bytes";
    Trailing = TRAILING, "bytes follow the leaf";
    SizeFalls = SIZE_FALLS, "the head has fewer leaves than the last one";
    TimestampNotLater = TIMESTAMP_NOT_LATER, "the head differs from the last one, and its timestamp is not later";
    Fork = FORK, "the head has the size of the last one, and another root";
    TimestampTooFar = TIMESTAMP_TOO_FAR, "the head's timestamp is too far beyond the last one's";
    BadState = BAD_STATE, "the bytes are not a state of a guard, a witness, a log or a monitor";
    StateRolledBack = STATE_ROLLED_BACK, "the state is before one that was seen";
    LaterLeaf = LATER_LEAF, "the leaf's timestamp is later than the last head's";
    OtherIndex = OTHER_INDEX, "the leaf has extensions, and they are not only its index";
    NotFirst = NOT_FIRST, "the head is neither that of the empty tree nor the named one";
    BadOrigin = BAD_ORIGIN, "the origin is empty, is not UTF-8, or has a line end";
    Edge = EDGE, "the partial tiles are not those of the state, or the edge is not a list of contents";
    Entries = ENTRIES, "the partial data tile is not that of the state";
    ClockBack = CLOCK_BACK, "the timestamp of the step is not later than the state's";
    LogFull = LOG_FULL, "the log would have more than 2^40 leaves";
    DataTileTooLong = DATA_TILE_TOO_LONG, "a data tile would have 2^32 bytes or more";
    Bundle = BUNDLE, "the bundle is not that of the state";
    Claim = CLAIM, "the path does not lead from the claimed entry to the root of the state";
    BadBatch = BAD_BATCH, "the bytes are not a list of submissions, or not one submission";
    TooMany = TOO_MANY, "the batch has more than 4,096 submissions";
    EmptyTree = EMPTY_TREE, "a tree without leaves has no tiles";
    TooManyTiles = TOO_MANY_TILES, "more tiles are given than are needed";
    MissingTile = MISSING_TILE, "fewer tiles are given than are needed";
    BadTile = BAD_TILE, "a tile does not have 32 bytes for each of its hashes";
    DerTruncated = DER_TRUNCATED, "the bytes end before an element of DER is whole";
    DerLongTag = DER_LONG_TAG, "the tag of an element of DER has more than one byte";
    DerIndefiniteLength = DER_INDEFINITE_LENGTH, "the length of an element is indefinite, which DER does not allow";
    DerLongLength = DER_LONG_LENGTH, "the length of an element of DER has more than four bytes after the first";
    DerPaddedLength = DER_PADDED_LENGTH, "the length of an element has more bytes than it needs, which DER does not allow";
    DerOtherTag = DER_OTHER_TAG, "an element of DER has another tag than its field must have";
    DerTrailing = DER_TRAILING, "bytes follow the last element of DER";
    NoExtension = NO_EXTENSION, "the certificate does not have the extension";
    SecondExtension = SECOND_EXTENSION, "the certificate has the extension twice";
    BadPoison = BAD_POISON, "the poison is not critical, or its value is not NULL";
    TbsTooLong = TBS_TOO_LONG, "the TBSCertificate has 2^24 bytes or more";
    ExtensionsTooLong = EXTENSIONS_TOO_LONG, "the extensions of a timestamp have 2^16 bytes or more";
    NoCheckpoint = NO_CHECKPOINT, "the text is not that of a checkpoint without extension lines";
    OtherOrigin = OTHER_ORIGIN, "the checkpoint is of another log than the state";
    OldAbove = OLD_ABOVE, "the old size is above the checkpoint's";
    NotLast = NOT_LAST, "the old size is not that of the tree that was cosigned last";
    ProofNotEmpty = PROOF_NOT_EMPTY, "there is a proof, although both trees are the same or the last one has no leaves";
    TimeFalls = TIME_FALLS, "the time of a cosignature is 0, or earlier than that of the last one";
    BadCommand = BAD_COMMAND, "no command of a node has this number";
    BadOutcome = BAD_OUTCOME, "no outcome of a command has this number";
    BadLockText = BAD_LOCK_TEXT, "the bytes are not the text of a lock";
    BadBatchName = BAD_BATCH_NAME, "the bytes are not the name of a staged batch";
    CreatesLock = CREATES_LOCK, "the node must create the lock of a new log";
    LockGone = LOCK_GONE, "there is no lock, and none may be created";
    BehindSeen = BEHIND_SEEN, "this machine saw a later head than the lock's, or another one with its size and timestamp";
    BehindSigned = BEHIND_SIGNED, "a later head than the lock's was signed";
    TwoRoots = TWO_ROOTS, "another head with the lock's size and timestamp was signed";
    SignedBehindListed = SIGNED_BEHIND_LISTED, "the store lists a later head than the last one that was signed";
    BehindListed = BEHIND_LISTED, "the store lists a later head than the lock's, or another one with its size and timestamp";
    BehindPublished = BEHIND_PUBLISHED, "a later head than the lock's is published, or another one with its size and timestamp";
    PartialFingerprint = PARTIAL_FINGERPRINT, "the length of the issuers' fingerprints is not a multiple of 32 bytes";
    OtherCount = OTHER_COUNT, "there are not as many subtrees as a tree of the head's size has";
    OtherLengths = OTHER_LENGTHS, "the lengths of the entries do not add up to that of their bytes";
    BadWatched = BAD_WATCHED, "the bytes are not a list of watched names";
    NotUtf8 = NOT_UTF8, "the text is not UTF-8";
    LaterEntry = LATER_ENTRY, "the entry is later than the head";
    NoDataTile = NO_DATA_TILE, "the name is not that of a data tile";
    TileAfter = TILE_AFTER, "the data tile begins after the next entry";
    TileBefore = TILE_BEFORE, "the data tile ends before the next entry";
    OtherEntries = OTHER_ENTRIES, "the data tile has another number of entries than its name says";
    WrongIndex = WRONG_INDEX, "an entry of the data tile does not name its own index in its extensions";
    NotASubtree = NOT_A_SUBTREE, "the range of leaves is not a subtree";
    BeyondTree = BEYOND_TREE, "the subtree ends beyond the tree";
    EmptyRange = EMPTY_RANGE, "the range has no leaves";
}

impl std::fmt::Display for Error {
    fn fmt(&self, f: &mut std::fmt::Formatter<'_>) -> std::fmt::Result {
        write!(f, "wagtenib: {}", self.words())
    }
}

impl std::error::Error for Error {}

/// Returns what an answer of the library means.
pub(crate) fn result(number: u32) -> Result<(), Error> {
    if number == code::OK {
        return Ok(());
    }
    // The contracts name all answers, so another one means that the library and this crate are of different versions.
    Err(Error::of(number).unwrap_or_else(|| panic!("libwagtenib answered {number}, which this version of the crate does not know")))
}
