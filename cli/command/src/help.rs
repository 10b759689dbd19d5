//! The texts of the help: what a command is about, and examples.

pub const ABOUT: &str = "Makes, checks, reads, searches and compares ZS archives (version 0.10, codec none), by a library that is proved.";

pub const STATUS: &str = "Exit status: 0 answered, 1 refused, 2 usage or input/output.
A refusal has a number, a place (the first byte of the block meant, if one is) and a sentence.";

/// Of the command that tells by its status what it found.
pub const COMPARE_STATUS: &str =
    "Exit status: 0 no differences, 1 refused, 2 usage or input/output, 3 A and B differ.
A refusal has a number, a place (the first byte of the block meant, if one is) and a sentence.";

pub const EXAMPLES: &str = "Examples:
  zs make '{\"about\": \"contacts\"}' contacts.txt contacts.zs --sort
  zs import sim card.adn card.zs --name-length 14 --metadata '{\"about\": \"my card\"}'
  zs validate contacts.zs
  zs dump contacts.zs --prefix 'Ada '
  zs compare older.zs contacts.zs
  zs info contacts.zs
  zs explain contacts.zs --prefix 'Ada '

Exit status: 0 answered, 1 refused, 2 usage or input/output, 3 compared files differ.
'zs COMMAND --help' says more about each command.";

pub const MAKE_INPUTS: &str = "METADATA is one JSON object in UTF-8, in which objects and arrays are nested at most 64 deep. It is
stored as it is given, without white space around it. Nothing is added, so that the same input
always makes the same archive.

By default each line of INPUT is a record, without its line end. A last record that nothing follows
is one, too. T takes the escapes \\t \\n \\r \\\\ and \\x00 to \\xff. Equal records are all kept.

INPUT is read into memory: how many records make a block depends on all of them. With
--records-per-block, and without --sort, the records of standard input or a pipe go into the archive
as they arrive, and memory holds the archive and not INPUT. Archive and refusals are the same, and
INPUT is read to its end.";

pub const MAKE_EXAMPLES: &str = "Examples:
  zs make '{\"about\": \"names\"}' names.txt names.zs        lines that are sorted by their bytes
  zs make '{}' names.txt names.zs --sort                 lines in any order
  zs make '{}' names.txt names.zs --terminator '\\r\\n'    lines as Windows has them
  zs make @about.json records out.zs --length-prefixed u64le
  LC_ALL=C sort names.txt | zs make '{}' - names.zs
  LC_ALL=C sort names.txt | zs make '{}' - names.zs --records-per-block 50
  zs make '{}' names.txt stick/names.zs --in-place
  zs dump old.zs --length-prefixed uleb128 |
    zs make \"$(zs info -m old.zs)\" - new.zs --length-prefixed uleb128 --records-per-block 50";

pub const IMPORT_EXAMPLES: &str = "Examples:
  zs import sim card.adn card.zs --name-length 14 --metadata '{\"about\": \"my card\"}'

'zs import sim --help' says more.";

pub const SIM_INPUTS: &str = "DUMP is the phonebook of a SIM card as the card has it: the file EF ADN of 3GPP TS 51.011, record after
record. X is the length of a record, which the card tells, less 14. DUMP is read into memory.

Records that are free, nothing but bytes FF, are left out. Every other one becomes a record of the
archive: the bytes of the name, coding bytes included and the filling after them left out, then the
last 14 bytes as they are. These are sorted by their bytes, and equal ones are all kept. JSON is
what METADATA is for 'zs make'.

A name is in the GSM alphabet, whose letters are bytes below 80 hex, or begins with the byte 80, 81
or 82 hex, which says how it is coded. A search goes by the bytes: --prefix Ada finds the names in
the GSM alphabet that begin so, --prefix '\\x80\\x00A\\x00d\\x00a' those in pairs of bytes. The
records are binary, so that a dump of all of them needs --length-prefixed.";

pub const SIM_EXAMPLES: &str = "Examples:
  zs import sim card.adn card.zs --name-length 14 --metadata '{\"about\": \"my card\"}'
  zs import sim card.adn card.zs --name-length 20 --metadata @about.json --force
  zs import sim card.adn stick/card.zs --name-length 14 --metadata '{}' --in-place
  cat one.adn two.adn | zs import sim - both.zs --name-length 14 --metadata '{}'
  zs dump card.zs --prefix Ada | od -An -c";

/// Of every command that makes an archive.
pub const OUT: &str = "OUT appears once it is whole and on the disk, and not at all after a refusal. A file that is there
already is kept, unless --force is given. A power cut leaves OUT as it was, or whole.

With --in-place OUT itself is written, which has to be a plain file. Until it is whole it is refused
as unfinished (2) or as no ZS file (3), also after a power cut. After a failure a new OUT is removed;
with --force what OUT held is gone, and OUT is to be made again.

A pipe, a device and standard output get the archive front to back.";

pub const VALIDATE_EXAMPLES: &str = "Examples:
  zs validate contacts.zs
  zs validate *.zs                 one line for each file, also after a refused one
  gunzip -c contacts.zs.gz | zs validate -";

pub const DUMP_EXAMPLES: &str = "S, P and T take the escapes \\t \\n \\r \\\\ and \\x00 to \\xff, and may begin with a dash. Bytes are compared
as unsigned numbers.

By default a record is followed by a line end. A record that contains the terminator makes the
output ambiguous: binary records need --length-prefixed.

Examples:
  zs dump contacts.zs                                  every record, one to a line
  zs dump contacts.zs --prefix 'Ada Blank\\t'           the records that begin so
  zs dump contacts.zs --start B --stop D               from B up to, not including, D
  zs dump contacts.zs --prefix '\\xff' --count          how many begin with the byte FF
  zs dump contacts.zs --terminator '\\x00' | xargs -0 -n 1 echo
  zs dump contacts.zs --length-prefixed u64le -o out   out appears once it is whole
  gunzip -c contacts.zs.gz | zs dump - --prefix Ada    an archive on standard input";

pub const COMPARE_EXAMPLES: &str = "Each line is a record that A and B hold a different number of times: the copies in A, those in B and
the record, with a tab between them. Records rise, and each is on one line: what isn't printable is
an escape, \\t \\n \\r \\\\ or \\x00 to \\xff. Both files are checked first. How their records are put into
blocks, and their metadata, make no difference.

With --count the line is, as an example, '5 differences, sum -2': so many lines there would be, and B
holds two records less than A.

Examples:
  zs compare older.zs newer.zs                         what was added, removed or repeated
  zs compare older.zs newer.zs | awk '$1 == 0'         the records that only newer.zs holds
  zs compare older.zs newer.zs | cut -f 3              the records alone
  zs compare older.zs newer.zs -o differences          a file that appears once it is whole
  zs compare older.zs newer.zs --count
  gunzip -c older.zs.gz | zs compare - newer.zs
  zs compare a.zs b.zs >/dev/null && echo the same records";

pub const INFO_EXAMPLES: &str =
    "The file is checked first. Its metadata is a JSON object and is shown as it is stored; on a terminal
control characters are shown as escapes.

Examples:
  zs info contacts.zs
  zs info -m contacts.zs           the metadata alone, as it is stored
  zs info -m contacts.zs | jq .    the same for another program";

pub const EXPLAIN_EXAMPLES: &str = "Each line is a block that the search opened, in that order: its first byte, its level (0 is data),
and the bounds between which its records lie. A block is opened where some byte string between its
bounds could match. It is opened in vain where it leads to no match.

Examples:
  zs explain contacts.zs --prefix 'Ada '
  zs explain contacts.zs --start B --stop D";
