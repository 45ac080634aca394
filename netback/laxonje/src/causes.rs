//! Causes: their numbers, and their names for a log, which are the header's comments.
use core::fmt;
use laxonje_sys as sys;

/// A number of one of the header's enums, with a constant and a name for each.
macro_rules! causes {
    ($(#[$doc:meta])* $name:ident: $($constant:ident = $number:ident, $text:literal;)*) => {
        $(#[$doc])*
        #[derive(Clone, Copy, Debug, PartialEq, Eq, PartialOrd, Ord, Hash)]
        pub struct $name(pub u32);

        impl $name {
            $(#[doc = concat!("This: ", $text, ".")] pub const $constant: $name = $name(sys::$number);)*
            /// All that this version of the library knows.
            pub const ALL: &'static [$name] = &[$($name::$constant),*];

            /// Its name for a log.
            pub fn name(self) -> &'static str {
                match self {
                    $($name::$constant => $text,)*
                    _ => "an unknown cause",
                }
            }
        }

        impl fmt::Display for $name {
            fn fmt(&self, to: &mut fmt::Formatter<'_>) -> fmt::Result {
                to.write_str(self.name())
            }
        }
    };
}

causes! {
    /// Why the verifier refuses a program: the number after the V.
    Cause:
    LENGTH = LAXONJE_V_LENGTH, "no whole slots, none, or more than 4,096";
    OPCODE = LAXONJE_V_OPCODE, "an opcode or a field of no instruction";
    REGISTER = LAXONJE_V_REGISTER, "a register above r10";
    TARGET = LAXONJE_V_TARGET, "a jump out of the program, or into a wide load";
    BACK_JUMP = LAXONJE_V_BACK_JUMP, "a jump that closes a cycle";
    END = LAXONJE_V_END, "control runs past the end";
    UNSET = LAXONJE_V_UNSET, "a register is read that may be unset";
    FRAME_POINTER = LAXONJE_V_FRAME_POINTER, "a write to r10";
    NO_POINTER = LAXONJE_V_NO_POINTER, "an access through a number";
    PACKET = LAXONJE_V_PACKET, "an access to the packet that no comparison allows";
    STACK = LAXONJE_V_STACK, "an access outside the stack, or a load of unset bytes";
    CONTEXT = LAXONJE_V_CONTEXT, "an access to the context that is no load of a field";
    MAY_BE_NULL = LAXONJE_V_MAY_BE_NULL, "an access through a lookup's result that may be null";
    MAP_ACCESS = LAXONJE_V_MAP_ACCESS, "a map's value used but by loads and adds of whole counters";
    HELPER = LAXONJE_V_HELPER, "a helper other than the map lookup";
    MAP_NUMBER = LAXONJE_V_MAP_NUMBER, "the number of a map that isn't there";
    ARGUMENT = LAXONJE_V_ARGUMENT, "a lookup's arguments are no map, or no set key on the stack";
    UNSUPPORTED = LAXONJE_V_UNSUPPORTED, "an instruction of the standard that isn't supported";
}

causes! {
    /// The fault of a settings text: the number after the L.
    Fault:
    TEXT = LAXONJE_L_TEXT, "too long, or not UTF-8";
    SYNTAX = LAXONJE_L_SYNTAX, "not TOML";
    KEY = LAXONJE_L_KEY, "an unknown or a missing key, or a wrong type";
    LIMIT = LAXONJE_L_LIMIT, "a number outside its limits";
    NAME = LAXONJE_L_NAME, "the name of a map";
    HEX = LAXONJE_L_HEX, "a hex text";
    RELOCATION = LAXONJE_L_RELOCATION, "a relocation";
    ROWS = LAXONJE_L_ROWS, "rows of a map that no list can have";
}

causes! {
    /// Why an object has no program of a name: the cause of `LAXONJE_OBJECT`.
    ObjectCause:
    HEADER = LAXONJE_O_HEADER, "the bytes don't begin with an ELF header";
    FORMAT = LAXONJE_O_FORMAT, "no file of 64 bits and little-endian byte order";
    MACHINE = LAXONJE_O_MACHINE, "no relocatable file for BPF";
    SECTION_TABLE = LAXONJE_O_SECTION_TABLE, "the table of sections doesn't lie in the file";
    SECTION = LAXONJE_O_SECTION, "a section doesn't lie in the file";
    SECTION_NAMES = LAXONJE_O_SECTION_NAMES, "sections have no names";
    NO_SYMBOLS = LAXONJE_O_NO_SYMBOLS, "no symbol table";
    TWO_SYMBOL_TABLES = LAXONJE_O_TWO_SYMBOL_TABLES, "section `at` is a second symbol table";
    SYMBOLS = LAXONJE_O_SYMBOLS, "a symbol table of other symbols, or without names";
    NO_FUNCTION = LAXONJE_O_NO_FUNCTION, "no function of this name";
    TWO_FUNCTIONS = LAXONJE_O_TWO_FUNCTIONS, "symbol `at` is a second one";
    CODE = LAXONJE_O_CODE, "a function that isn't whole slots of a section of code";
    TWO_TABLES = LAXONJE_O_TWO_TABLES, "section `at` is a second table of relocations";
    TABLE = LAXONJE_O_TABLE, "section `at` isn't whole relocations without addends";
    ORDER = LAXONJE_O_ORDER, "relocation `at` doesn't lie above the one before it";
    RELOCATION = LAXONJE_O_RELOCATION, "relocation `at` is of another type, as for a call";
    PLACE = LAXONJE_O_PLACE, "it doesn't change a wide load, or one of a map that isn't of 0";
    NO_MAP = LAXONJE_O_NO_MAP, "its symbol is neither a map nor among constants";
    MAPS = LAXONJE_O_MAPS, "more than 16 maps, with those of constants";
    NO_TYPES = LAXONJE_O_NO_TYPES, "no types (BTF): compile with -g";
    TWO_TYPES = LAXONJE_O_TWO_TYPES, "section `at` is a second one of types";
    TYPES = LAXONJE_O_TYPES, "types without their header";
    TYPE = LAXONJE_O_TYPE, "type `at` isn't a whole one of a known kind";
    DEFINITION = LAXONJE_O_DEFINITION, "map `at` has no definition as libbpf has it";
    NAME = LAXONJE_O_NAME, "its name isn't 1 to 32 bytes of UTF-8";
    KIND = LAXONJE_O_KIND, "its type is no array, hash or prefix trie";
    KEY = LAXONJE_O_KEY, "its keys: 4 bytes of an array, else 1 to 64 of data";
    ENTRIES = LAXONJE_O_ENTRIES, "no entry, or more than 65,536";
    VALUE = LAXONJE_O_VALUE, "values of no byte, or more than 64";
    OUTSIDE = LAXONJE_O_OUTSIDE, "relocation `at` is for a place outside of its section of constants";
    GLOBAL = LAXONJE_O_GLOBAL, "relocation `at` is for a global that programs may write to";
    ADDRESSES = LAXONJE_O_ADDRESSES, "map `at` is constants that are addresses: a table of texts, say";
    CONSTANTS = LAXONJE_O_CONSTANTS, "it has more than 65,536 bytes of constants";
}

causes! {
    /// Why a packet of a guest was refused.
    Refusal:
    SHORT = LAXONJE_REFUSAL_SHORT, "less than an Ethernet header";
    SIZES = LAXONJE_REFUSAL_SIZES, "later slots have more bytes than the first";
    PAGE = LAXONJE_REFUSAL_PAGE, "a slot's bytes pass the end of its page";
    GRANT = LAXONJE_REFUSAL_GRANT, "a slot's grant failed its check";
    EXTRA = LAXONJE_REFUSAL_EXTRA, "an extra info";
    FEW_SLOTS = LAXONJE_REFUSAL_FEW_SLOTS, "too few rx slots to send the packet back";
    RX_GRANT = LAXONJE_REFUSAL_RX_GRANT, "an rx slot's grant failed its check";
}

causes! {
    /// Why a queue has halted.
    Halt:
    TX_PRODUCER = LAXONJE_HALT_TX_PRODUCER, "the tx producer is more than a ring ahead";
    SHORT_CHAIN = LAXONJE_HALT_SHORT_CHAIN, "a chain wants a slot that the producer didn't show";
    SLOTS = LAXONJE_HALT_SLOTS, "more than 18 slots";
    UNKNOWN_EXTRA = LAXONJE_HALT_UNKNOWN_EXTRA, "an extra info of no known type";
    EXTRAS = LAXONJE_HALT_EXTRAS, "too many extra infos";
    RX_PRODUCER = LAXONJE_HALT_RX_PRODUCER, "the rx producer is more than a ring ahead";
}
