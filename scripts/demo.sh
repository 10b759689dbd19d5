#!/usr/bin/env bash
# Installs what is missing, builds the proved library and the command zs, and shows them on archives of fictitious contacts.
set -euo pipefail
cd "$(dirname "$0")/.."
PATH="$PATH:${CARGO_HOME:-$HOME/.cargo}/bin"
made=$(mktemp -d)
trap 'rm -rf "$made"' EXIT

scripts/setup.sh
echo "Proving the library, and building it for Rust and C. The first time this takes some minutes."
scripts/staticlib.sh zs
echo "Building the command zs over it."
(cd cli && cargo build --offline --release --quiet --bin zs)

# From here on the commands are those that a person would type beside a list of names and copies of three samples.
PATH="$PWD/cli/target/release:$PATH"
cp samples/contacts.zs samples/contacts-older.zs samples/sim-phonebook.adn "$made"
cd "$made"
printf '%s\t%s\n' 'Ned Unreal' 201-555-0152 'Ada Blank' 412-555-0193 'Greta Mockley' 808-555-0136 'Pia Invented' 305-555-0120 \
    'Bram Sample' 503-555-0132 'Greta Mockley' 201-555-0191 'Cleo Fiction' 617-555-0118 >names.txt

# show STATUS SENTENCE COMMAND: says what is to be seen, runs the command, and holds it to its exit status.
show() {
    printf '\n%s\n$ %s\n' "$2" "$3"
    local status=0
    eval "$3" || status=$?
    if [ "$status" -ne "$1" ]; then
        echo "demo: exit status $status where $1 was due" >&2
        exit 1
    fi
}

show 0 "A list of names, in no order." \
    "cat names.txt"
show 1 "The records of an archive are in order. Those that aren't are shown, and no archive is made." \
    "zs make '{\"about\": \"names and numbers\"}' names.txt names.zs"
show 0 "Sorted, they make an archive. Blocks of two records give the index something to do." \
    "zs make '{\"about\": \"names and numbers\"}' names.txt names.zs --sort --records-per-block 2"
show 0 "The archive is valid .." \
    "zs validate names.zs"
show 0 ".. and every record is found." \
    "zs dump names.zs --prefix 'Greta '"
show 0 "The search has opened only what it had to." \
    "zs explain names.zs --prefix 'Greta '"
show 2 "A file that is there already is kept, unless --force is given." \
    "zs make '{}' names.txt names.zs --sort"

show 0 "The phonebook of a SIM card: 20 records of 28 bytes, 14 of them for the name. Four are free, the others make an archive." \
    "zs import sim sim-phonebook.adn card.zs --name-length 14 --metadata '{\"about\": \"my card\"}'"
show 0 "A record that is on the card three times is kept three times." \
    "zs dump card.zs --prefix 'Echo Repeated' --count"
show 0 "In names of the codings 80, 81 and 82 the byte FF is a letter, or part of one, and ends nothing. They are kept whole .." \
    "zs dump card.zs --start '\x80' | od -An -t x1z"
show 0 ".. and found by it." \
    "zs dump card.zs --prefix '\x81\x05\x01Lo\xffse' --count"
show 1 "With another length the records aren't what they seem. The first one at fault is named, and no archive is made." \
    "zs import sim sim-phonebook.adn more.zs --name-length 26 --metadata '{}'"

show 0 "A sample of 1500 contacts. The file is checked against every rule of the format: checksums, order, index, and the hash of its data." \
    "zs validate contacts.zs"
show 0 "What its header says, and what the check counted." \
    "zs info contacts.zs"
show 0 "All contacts of one name. The file is checked, then searched through its index." \
    "zs dump contacts.zs --prefix 'Greta Mockley\t'"
show 0 "Which blocks that search opened, from the root down: place, level, bounds, matches." \
    "zs explain contacts.zs --prefix 'Greta Mockley\t'"
show 0 "A record that is stored 40 times, over several blocks, is found 40 times." \
    "zs dump contacts.zs --prefix 'Echo Repeated\t' --count"
show 0 "Names may hold bytes FF (cat -v shows them as M-^?) .." \
    "zs dump contacts.zs --prefix 'Lou\xffse Unreal\t' | cat -v"
show 0 ".. and begin with them; such names come after all letters." \
    "zs dump contacts.zs --start '\xff\xff\xffunlisted 50' | cat -v"
show 0 "From B up to E through the index .." \
    "zs dump contacts.zs --start B --stop E -o searched"
show 0 ".. and by reading front to back .." \
    "zs dump contacts.zs --start B --stop E --scan -o scanned"
show 0 ".. are the same records." \
    "cmp searched scanned && wc -l searched"

show 3 "An older backup of the contacts. Each line is a record that differs: copies in the older one, in the newer one, and the record." \
    "zs compare contacts-older.zs contacts.zs"
show 3 "How many differ, and how many records the newer one has more." \
    "zs compare contacts-older.zs contacts.zs --count"
show 0 "The same records in other blocks are no difference." \
    "zs dump contacts.zs | zs make '{}' - other.zs --records-per-block 100 && zs compare contacts.zs other.zs --count"

cp contacts.zs damaged.zs
printf i | dd of=damaged.zs bs=1 seek=4998 conv=notrunc status=none
show 1 "A copy in which one Bram became Brim is refused, with a number, the place of the block and a sentence." \
    "zs validate damaged.zs"
show 1 "Nothing of it is given out: there will be no file named out." \
    "zs dump damaged.zs --prefix 'Ada ' -o out"
show 2 "There is none." \
    "ls out"
