//! Named cases of questions 1 to 4. Each says literally what the document says
//! of it; this program's own answer is compared with that as well.

use crate::model::sheet::*;
use crate::named::book::{Asked, Book};
use crate::named::sister::*;
use crate::named::{paths, question_refusals};

pub fn all() -> Vec<Asked> {
    let mut book = Book::default();
    sister_ships(&mut book);
    more_of_sheet_a(&mut book);
    the_joint(&mut book);
    bans_the_same_way(&mut book);
    changing_office(&mut book);
    fused_variants(&mut book);
    marked_by_ends(&mut book);
    paths::add_all(&mut book);
    question_refusals::add_all(&mut book);
    book.asked
}

fn sister_ships(book: &mut Book) {
    let (a, b, c, joint) = (sheet_a(), sheet_b(), sheet_c(), joint_of_a_and_b());
    book.answer("case 1, A: 11, 31, 41 Granted", &a, [1, 11, 31, 41], 1);
    let path = [11, 0, 21, 0, 22, 0, 31, 1, 41, 0];
    book.witness("case 2, the witness of case 1", &a, [1, 0, 11, 31, 41], &path);
    book.answer("case 3, A: 12, 31, 41 Granted", &a, [1, 12, 31, 41], 1);
    book.answer("case 4, A: 11, 31, 42 Banned", &a, [1, 11, 31, 42], 2);
    book.answer("case 5, A: 12, 31, 42 Banned", &a, [1, 12, 31, 42], 2);
    let path = [12, 0, 22, 0, 21, 0, 31, 2, 42, 0];
    book.witness("case 5, its witness", &a, [1, 1, 12, 31, 42], &path);
    book.answer("case 6, B: 11, 31, 42 Granted", &b, [1, 11, 31, 42], 1);
    book.joint("case 7, grant-first: Granted by office 2", &joint, [1, 11, 31, 42], (1, 2));
    book.joint("case 8, deny-first: Banned by office 1", &joint, [2, 11, 31, 42], (2, 1));
    book.joint("case 9, first-applicable: Banned by office 1", &joint, [3, 11, 31, 42], (2, 1));
    book.answer("case 10, C: 11, 31, 42 Both", &c, [1, 11, 31, 42], 3);
    book.witness(
        "case 10, its grant",
        &c,
        [1, 0, 11, 31, 42],
        &[11, 0, 21, 0, 22, 0, 31, 2, 42, 0],
    );
    book.witness("case 10, its ban", &c, [1, 1, 11, 31, 42], &[11, 0, 21, 0, 31, 2, 42, 0]);
}

fn more_of_sheet_a(book: &mut Book) {
    let (a, b) = (sheet_a(), sheet_b());
    book.witness("A: 12's grant", &a, [1, 0, 12, 31, 41], &[12, 0, 22, 0, 31, 1, 41, 0]);
    book.witness("A: 11's ban", &a, [1, 1, 11, 31, 42], &[11, 0, 21, 0, 31, 2, 42, 0]);
    book.witness("B: 11's grant", &b, [1, 0, 11, 31, 42], &[11, 0, 21, 0, 31, 2, 42, 0]);
    book.no_path("A: no ban of 11 on 41", &a, [1, 1, 11, 31, 41]);
    book.no_path("A: no ban of 12 on 41", &a, [1, 1, 12, 31, 41]);
    book.no_path("B: no ban of 11 on 42", &b, [1, 1, 11, 31, 42]);
    for rule in 1..=3 {
        let name = format!("A alone under rule {rule}");
        book.joint(&name, &a, [rule, 12, 31, 42], (2, 1));
        let name = format!("B alone under rule {rule}");
        book.joint(&name, &b, [rule, 11, 31, 42], (1, 1));
    }
    book.joint("C alone, grant-first", &sheet_c(), [1, 11, 31, 42], (1, 1));
    book.joint("C alone, deny-first", &sheet_c(), [2, 11, 31, 42], (2, 1));
    book.joint("C alone, first-applicable", &sheet_c(), [3, 11, 31, 42], (3, 1));
}

/// Case 11: in the joint each office still answers as its own sheet did.
fn the_joint(book: &mut Book) {
    let joint = joint_of_a_and_b();
    book.answer("case 11, office 1: 11, 31, 41 Granted", &joint, [1, 11, 31, 41], 1);
    book.answer("case 11, office 1: 12, 31, 41 Granted", &joint, [1, 12, 31, 41], 1);
    book.answer("case 11, office 1: 12, 31, 42 Banned", &joint, [1, 12, 31, 42], 2);
    book.answer("case 11, office 2: 11, 31, 42 Granted", &joint, [2, 11, 31, 42], 1);
    let path = [11, 0, 21, 0, 31, 2, 42, 0];
    book.witness("case 11, office 2's grant", &joint, [2, 0, 11, 31, 42], &path);
    book.witness("case 11, office 1's ban", &joint, [1, 1, 11, 31, 42], &path);
    book.no_path("case 11, office 2 bans nothing", &joint, [2, 1, 11, 31, 42]);
    for rule in 1..=3 {
        let name = format!("case 11, rule {rule}: 11, 31, 41 Granted by 1");
        book.joint(&name, &joint, [rule, 11, 31, 41], (1, 1));
        let name = format!("case 11, rule {rule}: 12, 31, 42 Banned by 1");
        book.joint(&name, &joint, [rule, 12, 31, 42], (2, 1));
    }
}

/// Person 1, categories 1 and 2, deed 1, folio 1; category 1 is contained in
/// category 2.
fn two_categories(member_of: u32, kind: u32, right_of: u32) -> Sheet {
    let nodes = [[1, 1, 0, 1], [2, 1, 0, 1], [2, 2, 0, 1], [3, 1, 0, 1], [4, 1, 0, 1]];
    let edges = [[1, 0, member_of, 1], [2, 1, 2, 1], [kind, right_of, 3, 1], [5, 3, 4, 1]];
    Sheet::new(1, &nodes, &edges)
}

/// Error 1: bans walked the same way as grants.
fn bans_the_same_way(book: &mut Book) {
    let ask = [1, 1, 1, 1];
    let (grant, ban) = ([1, 0, 1, 1, 1], [1, 1, 1, 1, 1]);
    let (up, down) = ([1, 0, 1, 0, 2, 0, 1, 0, 1, 0], [1, 0, 2, 0, 1, 0, 1, 0, 1, 0]);
    let granted_above = two_categories(1, 3, 2);
    book.answer("a grant reaches from below", &granted_above, ask, 1);
    book.witness("a grant's way up", &granted_above, grant, &up);
    let banned_above = two_categories(1, 4, 2);
    book.answer("a ban does not reach from below", &banned_above, ask, 0);
    book.no_path("no ban path upwards", &banned_above, ban);
    book.listed("a ban path upwards", &banned_above, ban, &up, false);
    let granted_below = two_categories(2, 3, 1);
    book.answer("a grant does not reach from above", &granted_below, ask, 0);
    book.no_path("no grant path downwards", &granted_below, grant);
    book.listed("a grant path downwards", &granted_below, grant, &down, false);
    let banned_below = two_categories(2, 4, 1);
    book.answer("a ban reaches from above", &banned_below, ask, 2);
    book.witness("a ban's way down", &banned_below, ban, &down);
    book.listed("a ban taken for a grant", &banned_below, grant, &down, false);
    book.listed("a grant taken for a ban", &granted_above, ban, &up, false);
}

/// Error 2: a walk in the joint sheet that changes office half way.
fn changing_office(book: &mut Book) {
    let path = [1, 0, 1, 0, 2, 0, 1, 0, 1, 0];
    for at in 0..4 {
        for (one, others) in [(1, 2), (2, 1)] {
            let mut sheet = two_categories(1, 3, 2);
            sheet.office_count = 2;
            sheet.nodes.iter_mut().for_each(|row| row[3] = 3);
            sheet.edges.iter_mut().for_each(|row| row[3] = others);
            sheet.edges[at][3] = one;
            let name = format!("edge {at} of a path at office {one} alone");
            for office in [1, 2] {
                let name = format!("{name}, asked at {office}");
                book.answer(&name, &sheet, [office, 1, 1, 1], 0);
                book.no_path(&name, &sheet, [office, 0, 1, 1, 1]);
                book.listed(&name, &sheet, [office, 0, 1, 1, 1], &path, false);
            }
            for rule in 1..=3 {
                book.joint(&format!("{name}, rule {rule}"), &sheet, [rule, 1, 1, 1], (0, 0));
            }
        }
    }
}

/// Error 3: fusing all variants of a deed number.
fn fused_variants(book: &mut Book) {
    let a = sheet_a();
    book.no_path("the right on 41 does not reach 42", &a, [1, 0, 12, 31, 42]);
    book.no_path("the ban on 42 does not reach 41", &a, [1, 1, 11, 31, 41]);
    let on_42 = [1, 0, 12, 31, 42];
    let list = [12, 0, 22, 0, 31, 1, 42, 0];
    book.listed("variant 1 on the folio of variant 2", &a, on_42, &list, false);
    let list = [12, 0, 22, 0, 31, 2, 42, 0];
    book.listed("variant 2 by the right of variant 1", &a, on_42, &list, false);
    let nodes = [[1, 1, 0, 1], [2, 1, 0, 1], [3, 1, 1, 1], [3, 1, 2, 1], [4, 1, 0, 1]];
    let apart = Sheet::new(1, &nodes, &[[1, 0, 1, 1], [3, 1, 2, 1], [5, 3, 4, 1]]);
    book.answer("one variant granted, the other applies", &apart, [1, 1, 1, 1], 0);
    book.no_path("one variant granted, the other applies", &apart, [1, 0, 1, 1, 1]);
    let edges = [[1, 0, 1, 1], [3, 1, 2, 1], [4, 1, 3, 1], [5, 2, 4, 1], [5, 3, 4, 1]];
    let both = Sheet::new(1, &nodes, &edges);
    book.answer("one variant granted, the other banned", &both, [1, 1, 1, 1], 3);
    book.witness("the variant granted", &both, [1, 0, 1, 1, 1], &[1, 0, 1, 0, 1, 1, 1, 0]);
    book.witness("the variant banned", &both, [1, 1, 1, 1, 1], &[1, 0, 1, 0, 1, 2, 1, 0]);
}

/// Error 4: marking an edge by its ends' offices.
fn marked_by_ends(book: &mut Book) {
    let joint = joint_of_a_and_b();
    let path = [11, 0, 21, 0, 31, 2, 42, 0];
    book.answer("office 1 does not have office 2's grant", &joint, [1, 11, 31, 42], 2);
    book.no_path("office 1 does not have office 2's grant", &joint, [1, 0, 11, 31, 42]);
    let name = "office 2's grant shown at office 1";
    book.listed(name, &joint, [1, 0, 11, 31, 42], &path, false);
    let name = "office 1's ban shown at office 2";
    book.listed(name, &joint, [2, 1, 11, 31, 42], &path, false);
}
