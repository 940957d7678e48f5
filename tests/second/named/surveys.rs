//! Named cases of questions 5 to 9. Each says literally what the document says
//! of it; this program's own answer is compared with that as well.

use crate::generate::longest::MOST_CATEGORIES;
use crate::model::sheet::*;
use crate::named::book::{Asked, Book};
use crate::named::sister::*;
use crate::named::{memberships, redundant, survey_refusals};

pub fn all() -> Vec<Asked> {
    let mut book = Book::default();
    sister_ships(&mut book);
    the_joint(&mut book);
    who_is_in_a_category(&mut book);
    a_ban_takes_nobody_off(&mut book);
    folios_without_a_grant(&mut book);
    both_by_number(&mut book);
    least_triple(&mut book);
    least_pair(&mut book);
    one_person_for_both_deeds(&mut book);
    longest_chain(&mut book);
    no_rows(&mut book);
    redundant::add_all(&mut book);
    memberships::add_all(&mut book);
    survey_refusals::add_all(&mut book);
    book.asked
}

fn sister_ships(book: &mut Book) {
    let (a, b, c) = (sheet_a(), sheet_b(), sheet_c());
    book.found("A: 11 is in 21", &a, &[5, 1, 21], &[11]);
    book.found("A: 11 and 12 are in 22", &a, &[5, 1, 22], &[11, 12]);
    book.found("A: who may do 31 on 41", &a, &[6, 1, 31, 41], &[11, 12]);
    book.found("A: nobody may do 31 on 42", &a, &[6, 1, 31, 42], &[]);
    book.found("A: nobody has a right to 42", &a, &[7, 1], &[42]);
    book.none("A: nothing is Both", &a, &[8, 1]);
    book.found("A: no edge is redundant", &a, &[10, 1], &[]);
    book.found("B: 11 is in 21", &b, &[5, 1, 21], &[11]);
    book.found("B: who may do 31 on 42", &b, &[6, 1, 31, 42], &[11]);
    book.found("B: every folio is granted", &b, &[7, 1], &[]);
    book.none("B: nothing is Both", &b, &[8, 1]);
    book.found("B: no edge is redundant", &b, &[10, 1], &[]);
    book.found("C: who may do 31 on 42", &c, &[6, 1, 31, 42], &[11, 12]);
    book.found("C: every folio is granted", &c, &[7, 1], &[]);
    book.found("case 10, C: the least triple that is Both", &c, &[8, 1], &[11, 31, 42]);
    book.found("C: no edge is redundant", &c, &[10, 1], &[]);
}

/// Case 11: in the joint each office still answers as its own sheet did.
fn the_joint(book: &mut Book) {
    let joint = joint_of_a_and_b();
    book.found("the joint, office 1: who is in 22", &joint, &[5, 1, 22], &[11, 12]);
    book.found("the joint, office 2: who is in 21", &joint, &[5, 2, 21], &[11]);
    book.found("the joint, office 1: nobody on 42", &joint, &[6, 1, 31, 42], &[]);
    book.found("the joint, office 2: 11 on 42", &joint, &[6, 2, 31, 42], &[11]);
    book.found("the joint, office 1: no right to 42", &joint, &[7, 1], &[42]);
    book.found("the joint, office 2: 41 is not its own", &joint, &[7, 2], &[]);
    for office in [1, 2] {
        let name = format!("the joint, office {office}: nothing is Both");
        book.none(&name, &joint, &[8, office]);
        let name = format!("the joint, office {office}: no edge is redundant");
        book.found(&name, &joint, &[10, office], &[]);
    }
}

/// Person 4 in category 1, 3 in 2, 2 in 3, 1 in 4; 1, 2, 3 rise, 4 stands apart.
fn who_is_in_a_category(book: &mut Book) {
    let mut nodes: Vec<Row> = (1..=4).map(|number| [PERSON, number, 0, 1]).collect();
    nodes.extend((1..=4).map(|number| [CATEGORY, number, 0, 1]));
    let members = [[1, 0, 7, 1], [1, 1, 6, 1], [1, 2, 5, 1], [1, 3, 4, 1]];
    let rising = [[2, 4, 5, 1], [2, 5, 6, 1]];
    let line = Sheet::new(1, &nodes, &[&members[..], &rising].concat());
    book.found("the lowest of a line", &line, &[5, 1, 1], &[4]);
    book.found("the middle of a line", &line, &[5, 1, 2], &[3, 4]);
    book.found("the top of a line", &line, &[5, 1, 3], &[2, 3, 4]);
    book.found("a category apart", &line, &[5, 1, 4], &[1]);
    let round = [[2, 4, 5, 1], [2, 5, 6, 1], [2, 6, 4, 1]];
    let ring = Sheet::new(1, &nodes, &[&members[..], &round].concat());
    for category in 1..=3 {
        let name = format!("category {category} of a ring");
        book.found(&name, &ring, &[5, 1, category], &[2, 3, 4]);
    }
    // Twice in a category is once in the list.
    let twice =
        [[1, 0, 4, 1], [1, 0, 5, 1], [1, 0, 6, 1], [2, 4, 5, 1], [2, 4, 6, 1], [2, 5, 6, 1]];
    let once = Sheet::new(1, &nodes, &twice);
    book.found("one person by many ways", &once, &[5, 1, 3], &[1]);
    book.found("a category without persons", &once, &[5, 1, 4], &[]);
}

/// Person 1, category 1, deed 1/1 and 1/2, folio 1; both variants apply.
fn one_of_each(rights: &[Row]) -> Sheet {
    let nodes = [[1, 1, 0, 1], [2, 1, 0, 1], [3, 1, 1, 1], [3, 1, 2, 1], [4, 1, 0, 1]];
    let mut edges = vec![[1, 0, 1, 1], [5, 2, 4, 1], [5, 3, 4, 1]];
    edges.extend(rights);
    edges.sort();
    Sheet { office_count: 1, nodes: nodes.to_vec(), edges }
}

fn a_ban_takes_nobody_off(book: &mut Book) {
    let both = one_of_each(&[[3, 1, 2, 1], [4, 1, 2, 1]]);
    book.found("granted and banned is listed", &both, &[6, 1, 1, 1], &[1]);
    book.found("a folio granted and banned is granted", &both, &[7, 1], &[]);
    let banned = one_of_each(&[[4, 1, 2, 1], [4, 1, 3, 1]]);
    book.found("banned alone is not listed", &banned, &[6, 1, 1, 1], &[]);
    book.found("a folio banned alone has no grant", &banned, &[7, 1], &[1]);
}

fn folios_without_a_grant(book: &mut Book) {
    let folios = [[4, 1, 0, 1], [4, 5, 0, 1], [4, u32::MAX, 0, 1]];
    let bare = Sheet::new(1, &folios, &[]);
    book.found("folios without an edge", &bare, &[7, 1], &[1, 5, u32::MAX]);
    let shared = [[4, 1, 0, 1], [4, 2, 0, 2], [4, 3, 0, 3]];
    let offices = Sheet::new(2, &shared, &[]);
    book.found("folios of office 1 alone", &offices, &[7, 1], &[1, 3]);
    book.found("folios of office 2 alone", &offices, &[7, 2], &[2, 3]);
    // Granted, and it applies, but nobody is in the category.
    let nodes = [[2, 1, 0, 1], [3, 1, 0, 1], [4, 1, 0, 1]];
    let nobody = Sheet::new(1, &nodes, &[[3, 0, 1, 1], [5, 1, 2, 1]]);
    book.found("a grant to nobody", &nobody, &[7, 1], &[1]);
}

/// Error 3, and any variant serves.
fn both_by_number(book: &mut Book) {
    let apart = one_of_each(&[[3, 1, 2, 1], [4, 1, 3, 1]]);
    book.found("Both by two variants", &apart, &[8, 1], &[1, 1, 1]);
    let mut elsewhere = apart;
    elsewhere.nodes.push([4, 2, 0, 1]);
    elsewhere.edges[4] = [5, 3, 5, 1];
    book.none("two variants on two folios", &elsewhere, &[8, 1]);
    book.found("the variant granted reaches 1 alone", &elsewhere, &[7, 1], &[2]);
    book.found("the variant granted, folio 1", &elsewhere, &[6, 1, 1, 1], &[1]);
    book.found("the variant granted, folio 2", &elsewhere, &[6, 1, 1, 2], &[]);
}

/// Person k in category k, deeds 1 and 2, folios 1 and 2: each wish is a person
/// with a deed and a folio, granted and, where asked, banned.
fn wishes(wishes: &[[u32; 3]], banned: bool) -> Sheet {
    let mut nodes: Vec<Row> = (1..=2).map(|number| [PERSON, number, 0, 1]).collect();
    nodes.extend((1..=2).map(|number| [CATEGORY, number, 0, 1]));
    let mut edges: Vec<Row> = vec![[1, 0, 2, 1], [1, 1, 3, 1]];
    // The variant says the folio, so that each pair has a node of its own.
    nodes.extend([[3, 1, 1, 1], [3, 1, 2, 1], [3, 2, 1, 1], [3, 2, 2, 1]]);
    nodes.extend([[4, 1, 0, 1], [4, 2, 0, 1]]);
    edges.extend([[5, 4, 8, 1], [5, 5, 9, 1], [5, 6, 8, 1], [5, 7, 9, 1]]);
    for [person, deed, folio] in wishes {
        let (category, node) = (1 + person, 1 + 2 * deed + folio);
        edges.push([3, category, node, 1]);
        if banned {
            edges.push([4, category, node, 1]);
        }
    }
    edges.sort();
    Sheet { office_count: 1, nodes, edges }
}

fn least_triple(book: &mut Book) {
    let cases = [
        ("persons first", [[1, 2, 2], [2, 1, 1]], [1, 2, 2]),
        ("then deeds", [[1, 1, 2], [1, 2, 1]], [1, 1, 2]),
        ("then folios", [[1, 1, 1], [1, 1, 2]], [1, 1, 1]),
        ("the second person alone", [[2, 2, 2], [2, 2, 1]], [2, 2, 1]),
    ];
    for (name, triples, least) in cases {
        book.found(name, &wishes(&triples, true), &[8, 1], &least);
        book.none(&format!("{name}, without bans"), &wishes(&triples, false), &[8, 1]);
    }
}

fn least_pair(book: &mut Book) {
    let persons_first = [[1, 1, 2], [1, 2, 2], [2, 1, 1], [2, 2, 1]];
    let folios_next = [[2, 1, 2], [2, 2, 2], [2, 1, 1], [2, 2, 1]];
    for deeds in [[1, 2], [2, 1]] {
        let asked = [9, 1, deeds[0], deeds[1]];
        let name = format!("deeds {deeds:?}, persons first");
        book.found(&name, &wishes(&persons_first, false), &asked, &[1, 2]);
        let name = format!("deeds {deeds:?}, then folios");
        book.found(&name, &wishes(&folios_next, false), &asked, &[2, 1]);
        let name = format!("deeds {deeds:?}, banned as well");
        book.found(&name, &wishes(&persons_first, true), &asked, &[1, 2]);
    }
}

fn one_person_for_both_deeds(book: &mut Book) {
    let two_persons = wishes(&[[1, 1, 1], [2, 2, 1]], false);
    book.none("each deed by another person", &two_persons, &[9, 1, 1, 2]);
    let two_folios = wishes(&[[1, 1, 1], [1, 2, 2]], false);
    book.none("each deed on another folio", &two_folios, &[9, 1, 1, 2]);
    let one_deed = wishes(&[[1, 1, 1], [1, 1, 2]], false);
    book.none("one of the deeds alone", &one_deed, &[9, 1, 1, 2]);
    book.none("the other of the deeds alone", &one_deed, &[9, 1, 2, 1]);
}

/// Error 5: a walk limited to fewer steps than the longest legal chain. Person 1
/// in category 1, the right at the last category, and a deed more than that takes one
/// category less.
fn longest_chain(book: &mut Book) {
    let last = MOST_CATEGORIES - 1;
    let mut nodes = vec![[1, 1, 0, 1]];
    nodes.extend((1..=last).map(|number| [2, number, 0, 1]));
    nodes.extend([[3, 1, 0, 1], [3, 2, 0, 1], [4, 1, 0, 1]]);
    let mut edges = vec![[1, 0, 1, 1]];
    edges.extend((1..last).map(|low| [2, low, low + 1, 1]));
    edges.extend([[3, last, last + 1, 1], [3, last, last + 2, 1], [4, 1, last + 1, 1]]);
    edges.extend([[5, last + 1, last + 3, 1], [5, last + 2, last + 3, 1]]);
    let chain = Sheet { office_count: 1, nodes, edges };
    book.found("the top of the longest chain", &chain, &[5, 1, last], &[1]);
    book.found("a grant over the longest chain", &chain, &[6, 1, 1, 1], &[1]);
    book.found("no folio left by the longest chain", &chain, &[7, 1], &[]);
    book.found("Both over the longest chain", &chain, &[8, 1], &[1, 1, 1]);
    book.found("two deeds over the longest chain", &chain, &[9, 1, 1, 2], &[1, 1]);
}

fn no_rows(book: &mut Book) {
    for office_count in [1, 2] {
        let empty = Sheet::new(office_count, &[], &[]);
        for office in 1..=office_count {
            let name = format!("zero nodes, office {office} of {office_count}");
            book.found(&name, &empty, &[7, office], &[]);
            book.found(&name, &empty, &[10, office], &[]);
            book.none(&name, &empty, &[8, office]);
        }
    }
}
