//! Importing phonebooks of SIM cards, whose records stand in four orders: against each other, and against `sort` of the same records as lines.

use zs_library::import_sim;

use super::Setting;
use crate::clock::{run_in_turn, side, Side};
use crate::input::Input;
use crate::others::Call;
use crate::phonebooks::{dump, records, Order, NAME_LENGTH};
use crate::records::lines;
use crate::report::{ratio, size, time, Goal, Report, Table};

/// A phonebook in memory, and its records as lines in a file that `sort` is given.
struct Phonebook {
    order: Order,
    dump: Vec<u8>,
    /// As long as the records that are imported.
    output: Vec<u8>,
    sort: Call,
}

/// What a phonebook took.
struct Times {
    import: f64,
    sort: f64,
}

/// Measures phonebooks of as many records as the large archive has.
pub fn measure(setting: &Setting, report: &mut Report) {
    let records = records(setting.sizes.records);
    let mut books = Order::ALL.map(|order| Phonebook::new(setting, order, &records));
    let sides: Vec<Side> = books.iter_mut().flat_map(Phonebook::sides).collect();
    let times = run_in_turn(setting.sizes.rounds, sides);
    let times: Vec<Times> = times
        .chunks(2)
        .map(|pair| Times {
            import: pair[0],
            sort: pair[1],
        })
        .collect();
    add_goals(setting, &times, report);
    report.add_table(table(setting, &books, &times));
}

impl Phonebook {
    /// Makes a phonebook of these records. Library and `sort` give the same.
    fn new(setting: &Setting, order: Order, records: &[Vec<u8>]) -> Self {
        let mut arranged = order.arrange(records);
        let name = format!("phonebook, {}.txt", order.name());
        let file = setting.folder.join(name);
        std::fs::write(&file, lines(&arranged)).expect("room for the lines");
        let dump = dump(&arranged);
        arranged.sort_unstable();
        let due = Input::new(&arranged).bytes;
        let mut output = vec![1; due.len()];
        let imported = import_sim(&dump, NAME_LENGTH as u64, &mut output);
        assert_eq!((imported.number, imported.length), (0, due.len() as u64));
        assert!(output == due);
        let sort = Call::new("sort", &[&file.to_string_lossy()]);
        assert!(sort.output() == lines(&arranged));
        Phonebook {
            order,
            dump,
            output,
            sort,
        }
    }

    /// The import, and `sort`.
    fn sides(&mut self) -> [Side<'_>; 2] {
        let (dump, output, sort) = (&self.dump, &mut self.output, &self.sort);
        [
            side(|| import_sim(dump, NAME_LENGTH as u64, output)),
            side(|| sort.run()),
        ]
    }
}

fn add_goals(setting: &Setting, times: &[Times], report: &mut Report) {
    let what = format!("import of {} SIM records", setting.sizes.records);
    for (order, taken) in Order::ALL.iter().zip(times).skip(1) {
        report.add_goal(
            &format!("{what}, {}: time against random order", order.name()),
            taken.import / times[0].import,
            Goal::AtMost(1.5),
        );
    }
    report.add_goal(
        &format!("{what}, random order: time against `sort` of the same lines as a process"),
        times[0].import / times[0].sort,
        Goal::None,
    );
}

fn table(setting: &Setting, books: &[Phonebook], times: &[Times]) -> Table {
    let count = setting.sizes.records;
    let about = format!(
        "Dumps of {count} records, {NAME_LENGTH} bytes for the name and 14 for the number, none of them free: the same records in three \
         orders, and one of them over and over; {} in memory, with an output that is as long as the records and is cleared within the time. \
         The import tests every record, sorts offsets in the output itself, and runs on one processor. `sort`, with LC_ALL=C, is started anew \
         for a file with the same records as lines, read before, and writes to /dev/null; it takes what memory and processors it likes.",
        size(books[0].dump.len())
    );
    let head = [
        "order",
        "the proved import",
        "per record",
        "time / random order",
        "`sort`",
        "per record",
        "time of the import / `sort`",
    ];
    let mut table = Table::new("Importing SIM phonebooks", &about, &head);
    for (book, taken) in books.iter().zip(times) {
        table.add_row(&[
            book.order.name(),
            &time(taken.import),
            &time(taken.import / count as f64),
            &ratio(taken.import / times[0].import),
            &time(taken.sort),
            &time(taken.sort / count as f64),
            &ratio(taken.import / taken.sort),
        ]);
    }
    table
}
