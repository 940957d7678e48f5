//! A book of named questions, lookups, joins, takings out, listings, searches, additions
//! and traces: what each asks, and literally what the document says of it.

use crate::generate::inquiry::Inquiry;
use crate::model::answer::{ANSWER, JOINT, LISTED, WITNESS};
use crate::model::limits::WORD;
use crate::model::lookup::Wanted;
use crate::model::position::{Key, Table};
use crate::model::sheet::*;
use crate::trial::operation::{
    adding, called, finding, Way, JOIN, LOOKUP, READ_LISTING, STEPS, TAKE_OUT, TRACE, WRITE_LISTING,
};

#[derive(Clone, Debug)]
pub enum Says {
    /// number, sheet, row
    Refused(u32, u32, u32),
    Value(u32),
    /// the answer, and the office that decides
    Joint(u32, u32),
    /// a path, a list, a triple or a pair
    Written(Vec<u32>),
    /// a path, counted in bytes
    Spelt(Vec<u32>),
    /// a row, and how many of its words fit
    Part(Row, usize),
    /// the joint sheet, and how many nodes and edges are shared
    Joined(Vec<u32>, [u32; 2]),
    /// a listing
    Typed(String),
    /// whether a row stands, and where it does or would
    Stands(bool, u32),
    /// the sheet with a row more, and where the row stands
    Added(Vec<u32>, u32),
    /// a refusal as above, or 0s; rows taken, answers, and how many of these fit
    Stepped([u32; 3], u32, Vec<u32>, usize),
}

impl Says {
    /// The first seven words of the reply, and the bytes that are written.
    pub fn reply(&self) -> ([u32; 7], Vec<u8>) {
        let counted = |count: usize| [0, 0, 0, 0, count as u32, 0, 0];
        match self {
            Says::Refused(number, sheet, row) => ([*number, *sheet, *row, 0, 0, 0, 0], Vec::new()),
            Says::Value(value) => ([0, 0, 0, *value, 0, 0, 0], Vec::new()),
            Says::Joint(value, office) => ([0, 0, 0, *value, *office, 0, 0], Vec::new()),
            Says::Part(row, fits) => (counted(row.len()), bytes_of(&row[..*fits])),
            Says::Joined(words, [nodes, edges]) => {
                let joint = node_count(words) as u32;
                ([0, 0, 0, joint, words.len() as u32, *nodes, *edges], bytes_of(words))
            }
            Says::Written(words) => (counted(words.len()), bytes_of(words)),
            Says::Spelt(words) => (counted(WORD * words.len()), bytes_of(words)),
            Says::Typed(text) => (counted(text.len()), text.as_bytes().to_vec()),
            Says::Stands(there, row) => ([0, 0, 0, u32::from(*there), *row, 0, 0], Vec::new()),
            Says::Stepped([number, sheet, row], taken, answers, fit) => {
                let count = answers.len() as u32;
                ([*number, *sheet, *row, *taken, count, 0, 0], bytes_of(&answers[..*fit]))
            }
            Says::Added(words, row) => ([0, 0, 0, *row, words.len() as u32, 0, 0], bytes_of(words)),
        }
    }
}

#[derive(Clone)]
pub struct Asked {
    pub name: String,
    pub says: Says,
    operation: u32,
    numbers: Vec<u32>,
    sheet: Vec<u8>,
    second: Vec<u32>,
    room: usize,
}

impl Asked {
    pub fn inquiry(&self) -> Inquiry {
        Inquiry {
            operation: self.operation,
            numbers: self.numbers.clone(),
            sheet: self.sheet.clone(),
            second: self.second.clone(),
            room: self.room,
        }
    }

    /// The same of an opened sheet or by the counter, for questions 1 to 3.
    pub fn by(self, way: Way) -> Option<Asked> {
        if self.operation > WITNESS {
            return None;
        }
        let says = match (way, self.says) {
            (Way::Counter, Says::Written(path)) => Says::Spelt(path),
            (_, says) => says,
        };
        let (name, operation) = (self.name, way.operation(self.operation));
        Some(Asked { name: format!("{name} {}", way.name()), says, operation, ..self })
    }
}

#[derive(Default)]
pub struct Book {
    pub asked: Vec<Asked>,
}

impl Book {
    fn add(&mut self, name: &str, operation: u32, sheet: &[u32], numbers: &[u32], says: Says) {
        self.file(name, operation, bytes_of(sheet), numbers, says);
    }

    /// Of bytes that need not be whole words.
    pub fn file(
        &mut self,
        name: &str,
        operation: u32,
        sheet: Vec<u8>,
        numbers: &[u32],
        says: Says,
    ) {
        let name = format!("{name} ({})", called(operation));
        let (numbers, second) = (numbers.to_vec(), Vec::new());
        self.asked.push(Asked { name, says, operation, numbers, sheet, second, room: 0 });
    }

    fn with_room(&mut self, name: &str, sheet: &Sheet, numbers: [u32; 5], room: usize, says: Says) {
        self.add(name, WITNESS, &sheet.words(), &numbers, says);
        if let Some(asked) = self.asked.last_mut() {
            asked.room = room;
        }
    }

    /// office, person, deed, folio
    pub fn answer(&mut self, name: &str, sheet: &Sheet, numbers: [u32; 4], value: u32) {
        self.add(name, ANSWER, &sheet.words(), &numbers, Says::Value(value));
    }

    /// rule, person, deed, folio
    pub fn joint(&mut self, name: &str, sheet: &Sheet, numbers: [u32; 4], says: (u32, u32)) {
        self.add(name, JOINT, &sheet.words(), &numbers, Says::Joint(says.0, says.1));
    }

    /// office, kind, person, deed, folio. The path is asked for with just
    /// enough room, with more and with too little, and shown as a list.
    pub fn witness(&mut self, name: &str, sheet: &Sheet, numbers: [u32; 5], path: &[u32]) {
        let says = || Says::Written(path.to_vec());
        let (short, length) = (Says::Refused(25, 0, 0), path.len());
        self.with_room(&format!("{name}, exactly enough room"), sheet, numbers, length, says());
        self.with_room(&format!("{name}, one word to spare"), sheet, numbers, length + 1, says());
        self.one_word_short(name, sheet, numbers, path);
        self.with_room(&format!("{name}, no room"), sheet, numbers, 0, short);
        self.listed(&format!("{name}, as a list"), sheet, numbers, path, true);
    }

    /// With just enough room alone: for sheets on which a path takes long.
    pub fn witness_alone(&mut self, name: &str, sheet: &Sheet, numbers: [u32; 5], path: &[u32]) {
        self.with_room(name, sheet, numbers, path.len(), Says::Written(path.to_vec()));
    }

    /// With so much room alone.
    pub fn no_path_alone(&mut self, name: &str, sheet: &Sheet, numbers: [u32; 5], room: usize) {
        let name = format!("{name}, no path");
        self.with_room(&name, sheet, numbers, room, Says::Refused(26, 0, 0));
    }

    /// With a word less than the path has.
    pub fn one_word_short(&mut self, name: &str, sheet: &Sheet, numbers: [u32; 5], path: &[u32]) {
        let name = format!("{name}, one word short");
        self.with_room(&name, sheet, numbers, path.len() - 1, Says::Refused(25, 0, 0));
    }

    /// Whatever the room: 26 comes before 25.
    pub fn no_path(&mut self, name: &str, sheet: &Sheet, numbers: [u32; 5]) {
        let none = Says::Refused(26, 0, 0);
        self.with_room(&format!("{name}, with room"), sheet, numbers, 40, none.clone());
        self.with_room(&format!("{name}, without room"), sheet, numbers, 0, none);
    }

    pub fn listed(
        &mut self,
        name: &str,
        sheet: &Sheet,
        numbers: [u32; 5],
        list: &[u32],
        yes: bool,
    ) {
        self.add(name, LISTED, &sheet.words(), &numbers, Says::Value(u32::from(yes)));
        if let Some(asked) = self.asked.last_mut() {
            asked.second = list.to_vec();
        }
    }

    /// The place of a refusal that is not the sheet's own is 0, 0.
    pub fn refused(&mut self, name: &str, sheet: &Sheet, operation: u32, numbers: &[u32], no: u32) {
        self.add(name, operation, &sheet.words(), numbers, Says::Refused(no, 0, 0));
    }

    pub fn bad_sheet(&mut self, name: &str, words: &[u32], operation: u32, says: (u32, u32)) {
        let strange = [9, 8, 7, 6, 5];
        self.add(name, operation, words, &strange, Says::Refused(says.0, 1, says.1));
    }

    fn survey(&mut self, name: &str, sheet: &Sheet, asked: &[u32], room: usize, says: Says) {
        self.add(name, asked[0], &sheet.words(), &asked[1..], says);
        if let Some(asked) = self.asked.last_mut() {
            asked.room = room;
        }
    }

    /// The question, the office, and what else it names. The list, triple or
    /// pair is asked for with just enough room, with more and with too little.
    pub fn found(&mut self, name: &str, sheet: &Sheet, asked: &[u32], words: &[u32]) {
        let (says, length) = (Says::Written(words.to_vec()), words.len());
        let name_of = |room: &str| format!("{name}, {room}");
        self.survey(&name_of("exactly enough room"), sheet, asked, length, says.clone());
        self.survey(&name_of("one word to spare"), sheet, asked, length + 1, says);
        if length > 0 {
            let short = Says::Refused(25, 0, 0);
            self.survey(&name_of("one word short"), sheet, asked, length - 1, short.clone());
            self.survey(&name_of("no room"), sheet, asked, 0, short);
        }
    }

    /// Whatever the room: 26 comes before 25.
    pub fn none(&mut self, name: &str, sheet: &Sheet, asked: &[u32]) {
        let none = Says::Refused(26, 0, 0);
        self.survey(&format!("{name}, with room"), sheet, asked, 5, none.clone());
        self.survey(&format!("{name}, without room"), sheet, asked, 0, none);
    }

    fn of_two(
        &mut self,
        name: &str,
        asked: &[u32],
        [first, second]: [&[u32]; 2],
        room: usize,
        says: Says,
    ) {
        self.add(name, asked[0], first, &asked[1..], says);
        if let Some(asked) = self.asked.last_mut() {
            asked.second = second.to_vec();
            asked.room = room;
        }
    }

    /// The row of its own identity, with just enough room, with more and with too
    /// little.
    pub fn looked_up(&mut self, name: &str, first: &[u32], second: &[u32], row: Row) {
        let [sort, number, variant, _] = row;
        for room in row.len() - 1..=row.len() + 1 {
            let name = format!("{name}, room for {room}");
            let says = Says::Part(row, room.min(row.len()));
            self.of_two(&name, &[LOOKUP, sort, number, variant], [first, second], room, says);
        }
    }

    /// number, sheet, row
    pub fn lookup_refused(
        &mut self,
        name: &str,
        first: &[u32],
        second: &[u32],
        wanted: Wanted,
        says: (u32, u32, u32),
    ) {
        let says = Says::Refused(says.0, says.1, says.2);
        let [sort, number, variant] = wanted;
        self.of_two(name, &[LOOKUP, sort, number, variant], [first, second], 5, says);
    }

    pub fn not_found(&mut self, name: &str, first: &[u32], second: &[u32], wanted: Wanted) {
        self.lookup_refused(&format!("{name}, not found"), first, second, wanted, (32, 0, 0));
    }

    /// The joint sheet's words and what is shared, with just enough room, with more
    /// and with too little.
    pub fn joined(&mut self, name: &str, sheets: [&Sheet; 2], joint: &Sheet, shared: [u32; 2]) {
        let [first, second] = sheets.map(Sheet::words);
        let (words, length) = (joint.words(), joint.words().len());
        let mut add = |room: usize, how: &str, says: Says| {
            self.of_two(&format!("{name}, {how}"), &[JOIN], [&first, &second], room, says);
        };
        let joined = Says::Joined(words, shared);
        add(length, "exactly enough room", joined.clone());
        add(length + 1, "one word to spare", joined);
        add(length - 1, "one word short", Says::Refused(25, 0, 0));
        add(0, "no room", Says::Refused(25, 0, 0));
    }

    /// number, sheet, row; whatever the room
    pub fn not_joined(&mut self, name: &str, sheets: [&[u32]; 2], says: (u32, u32, u32)) {
        let says = Says::Refused(says.0, says.1, says.2);
        self.of_two(&format!("{name}, without room"), &[JOIN], sheets, 0, says.clone());
        self.of_two(&format!("{name}, with room"), &[JOIN], sheets, 80, says);
    }

    /// With just enough room, with more and with too little.
    pub fn taken_out(&mut self, name: &str, sheet: &Sheet, office: u32, says: &Sheet) {
        self.found(name, sheet, &[TAKE_OUT, office], &says.words());
    }

    /// number, sheet, row; whatever the room
    pub fn not_taken_out(&mut self, name: &str, sheet: &[u32], office: u32, says: (u32, u32, u32)) {
        let says = Says::Refused(says.0, says.1, says.2);
        let asked = [TAKE_OUT, office];
        self.of_two(&format!("{name}, without room"), &asked, [sheet, &[]], 0, says.clone());
        self.of_two(&format!("{name}, with room"), &asked, [sheet, &[]], 80, says);
    }

    fn lent(&mut self, name: &str, operation: u32, first: &[u8], room: usize, says: Says) {
        self.file(name, operation, first.to_vec(), &[], says);
        if let Some(asked) = self.asked.last_mut() {
            asked.room = room;
        }
    }

    /// The sheet that a text becomes, with just enough room, with more and with too
    /// little.
    pub fn read(&mut self, name: &str, text: &[u8], sheet: &Sheet) {
        let (words, length) = (sheet.words(), sheet.words().len());
        let mut add = |room: usize, how: &str, says: Says| {
            self.lent(&format!("{name}, {how}"), READ_LISTING, text, room, says);
        };
        let read = Says::Written(words);
        add(length, "exactly enough room", read.clone());
        add(length + 1, "one word to spare", read);
        add(length - 1, "one word short", Says::Refused(25, 0, 0));
        add(0, "no room", Says::Refused(25, 0, 0));
    }

    /// number and line; whatever the room
    pub fn not_read(&mut self, name: &str, text: &[u8], says: (u32, u32)) {
        let says = Says::Refused(says.0, 0, says.1);
        let without = format!("{name}, without room");
        self.lent(&without, READ_LISTING, text, 0, says.clone());
        self.lent(&format!("{name}, with room"), READ_LISTING, text, 80, says);
    }

    /// The text of a sheet, with just as many words as it needs, with more and with
    /// too few.
    pub fn typed(&mut self, name: &str, sheet: &Sheet, text: &str) {
        let (words, length) = (bytes_of(&sheet.words()), text.len().div_ceil(WORD));
        let mut add = |room: usize, how: &str, says: Says| {
            self.lent(&format!("{name} written, {how}"), WRITE_LISTING, &words, room, says);
        };
        let typed = Says::Typed(text.to_string());
        add(length, "just enough room", typed.clone());
        add(length + 1, "one word to spare", typed);
        if length > 0 {
            add(length - 1, "one word short", Says::Refused(25, 0, 0));
            add(0, "no room", Says::Refused(25, 0, 0));
        }
    }

    /// number, sheet, row; whatever the room
    pub fn not_typed(&mut self, name: &str, words: &[u32], says: (u32, u32, u32)) {
        let (words, says) = (bytes_of(words), Says::Refused(says.0, says.1, says.2));
        let without = format!("{name} not written, without room");
        self.lent(&without, WRITE_LISTING, &words, 0, says.clone());
        self.lent(&format!("{name} not written, with room"), WRITE_LISTING, &words, 80, says);
    }

    /// Whether the row stands, and where it does or would.
    pub fn stands(&mut self, name: &str, words: &[u32], table: Table, key: Key, says: (bool, u32)) {
        let name = format!("{name}: {key:?}");
        self.add(&name, finding(table), words, &key, Says::Stands(says.0, says.1));
    }

    /// number and row of the sheet
    pub fn not_searched(&mut self, name: &str, words: &[u32], table: Table, says: (u32, u32)) {
        let says = Says::Refused(says.0, 1, says.1);
        self.add(name, finding(table), words, &[1, 11, 0], says);
    }

    fn adds(&mut self, name: &str, words: &[u32], what: (Table, Row), room: usize, says: Says) {
        let (table, row) = what;
        self.add(&format!("{name}: {row:?}"), adding(table), words, &row, says);
        if let Some(asked) = self.asked.last_mut() {
            asked.room = room;
        }
    }

    /// The sheet with the row, which stands at this place of it; with just enough room,
    /// with more and with too little.
    pub fn added(&mut self, name: &str, sheet: &Sheet, what: (Table, Row), says: (&Sheet, u32)) {
        let (before, after) = (sheet.words(), says.0.words());
        let (length, short) = (after.len(), Says::Refused(25, 0, 0));
        let says = Says::Added(after, says.1);
        let mut add = |room: usize, how: &str, says: &Says| {
            self.adds(&format!("{name}, {how}"), &before, what, room, says.clone());
        };
        add(length, "exactly enough room", &says);
        add(length + 1, "one word to spare", &says);
        add(length - 1, "one word short", &short);
        add(0, "no room", &short);
    }

    /// number, sheet, row; whatever the room
    pub fn not_added(
        &mut self,
        name: &str,
        words: &[u32],
        what: (Table, Row),
        says: (u32, u32, u32),
    ) {
        let says = Says::Refused(says.0, says.1, says.2);
        self.adds(&format!("{name}, without room"), words, what, 0, says.clone());
        self.adds(&format!("{name}, with room"), words, what, words.len() + 4, says);
    }

    fn rows(&mut self, name: &str, asked: [u32; 2], sheet: &[u32], rows: &[u32], says: Says) {
        let [operation, timeout] = asked;
        self.add(name, operation, sheet, &[timeout], says);
        if let Some(asked) = self.asked.last_mut() {
            asked.second = rows.to_vec();
        }
    }

    /// The answers to a trace, with just enough room, with more and with too little: whole
    /// it is then refused, and by steps what fits is there.
    pub fn traced(&mut self, name: &str, sheet: &[u32], timeout: u32, rows: &[u32], says: &[u32]) {
        let (length, taken) = (says.len(), (rows.len() / 5) as u32);
        let mut rooms = vec![(length, "exactly enough room"), (length + 1, "one word to spare")];
        if length > 0 {
            rooms.extend([(length - 1, "one word short"), (0, "no room")]);
        }
        for (room, how) in rooms {
            let name = format!("{name}, {how}");
            let whole = match room < length {
                true => Says::Refused(25, 0, 0),
                false => Says::Written(says.to_vec()),
            };
            self.rows(&name, [TRACE, timeout], sheet, rows, whole);
            self.lend(room);
            let stepped = Says::Stepped([0, 0, 0], taken, says.to_vec(), room.min(length));
            self.rows(&name, [STEPS, timeout], sheet, rows, stepped);
            self.lend(room);
        }
    }

    fn lend(&mut self, room: usize) {
        if let Some(asked) = self.asked.last_mut() {
            asked.room = room;
        }
    }

    /// number, sheet, row; whatever the room. By steps, so many rows are taken first, and
    /// their answers stay.
    pub fn not_traced(
        &mut self,
        name: &str,
        sheet: &[u32],
        (timeout, rows): (u32, &[u32]),
        says: [u32; 3],
        (taken, answers): (u32, &[u32]),
    ) {
        for (room, how) in [(0, "without room"), (80, "with room")] {
            let name = format!("{name}, {how}");
            let refused = Says::Refused(says[0], says[1], says[2]);
            self.rows(&name, [TRACE, timeout], sheet, rows, refused);
            self.lend(room);
            let fit = answers.len().min(room);
            let stepped = Says::Stepped(says, taken, answers.to_vec(), fit);
            self.rows(&name, [STEPS, timeout], sheet, rows, stepped);
            self.lend(room);
        }
    }
}
