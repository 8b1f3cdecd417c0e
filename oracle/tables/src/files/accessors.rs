//! A plane's rows and pages as an `impl Plane`: methods that are a `match`, each with the lists that its proof opens.

use super::{of_rust, File, BYTE, UNICODE_DATA};
use crate::arms::{at_last, method, proof};
use crate::layout::Consts;
use crate::rows::Plane;

/// What table.rt cites, after its first line.
pub fn uses(consts: &mut Consts, krate: &str) {
    consts.line(&format!("ghost use Rattle.{krate}.specs.Planes as planes;"));
    consts.line(&format!("ghost use Rattle.{krate}.specs.Readable.{{readable0, readable1}};"));
    consts.line(&format!("ghost use Rattle.{krate}.specs.Table as lists;"));
    consts.line("");
    consts.line("use casing::kernel::Plane;");
}

/// The type of plane p and its `impl`.
pub fn plane(consts: &mut Consts, p: usize, plane: &Plane) {
    consts.text_of(&format!(
        "\npub struct Plane{p};\n\n\
        impl Plane<{p}> for Plane{p} {{\n    \
        ghost rows = {{ planes.plane{p} }};\n\n    \
        ghost pages = {{ lists.pages{p} }};\n\n    \
        ghost test = {{ readable{p} }};\n"
    ));
    for text in [ends(p, plane), fours(p, plane), pages(p, plane), multis(p, plane)] {
        consts.text_of(&text);
    }
    consts.line("}");
}

/// The definitions of a module that a proof opens, where # stands for the plane.
fn opened(p: usize, module: &str, names: &[&str]) -> Vec<String> {
    names.iter().map(|name| format!("{module}::{}", name.replace('#', &p.to_string()))).collect()
}

/// With more multi rows than these the check does not find by itself what no row says.
const FOUND: usize = 50;

/// The proof of what the multi rows say of a number that is none of theirs, where it has to be written.
pub fn no_multi(krate: &str, p: usize, plane: &Plane) -> Option<File> {
    if plane.multi.len() <= FOUND {
        return None;
    }
    let lists = format!("multi{p} multi{p}_first multi{p}_second multi{p}_third");
    let cites = format!(
        "use Rattle.casing.specs.Rows.{{zip, first_row, multiple}}\n\
         use Rattle.casing.proofs.Arms.{{Unmapped, no_multi}}\n\
         use Rattle.{krate}.specs.Table.{{{}}}\n",
        lists.replace(' ', ", ")
    );
    let opens = format!("zip first_row multiple Unmapped {lists}");
    let answers = [at_last(&format!("no_multi {lists} {p} _ {{}}"))];
    let place = format!("table::Plane{p}Plane{p}");
    let says = "what is no arm's number is in no multi row";
    Some(proof(&of_rust(UNICODE_DATA), (krate, &place), "multi", says, &cites, &opens, &answers))
}

const LISTS: &str = "crate::specs::Table";

fn ends(p: usize, plane: &Plane) -> String {
    let head = "end(i: usize) -> u16";
    let opens = opened(p, LISTS, &["ends#"]);
    let arms = plane.ends.iter().enumerate().map(|(i, end)| format!("{i} => 0x{end:04X}"));
    // no row ends at 0, so that no arm is merged with the last, which no index reaches
    method(head, &opens, &arms.collect::<Vec<_>>(), "0")
}

fn fours(p: usize, plane: &Plane) -> String {
    let words = plane.words();
    let fours = words.chunks(4).enumerate().map(|(k, four)| {
        let word = |at| four.get(at).copied().unwrap_or(0);
        let words: String = (0..4).map(|at| format!("                0x{:016X},\n", word(at))).collect();
        format!("{k} => [\n{words}            ]")
    });
    let opens = [
        opened(p, "casing::specs::Reading", &["packed"]),
        opened(p, "casing::specs::Rows", &["zip"]),
        opened(p, LISTS, &["starts#", "ends#", "steps#", "deltas#"]),
    ];
    method("four(i: usize) -> [u64; 4]", &opens.concat(), &fours.collect::<Vec<_>>(), "[0, 0, 0, 0]")
}

fn pages(p: usize, plane: &Plane) -> String {
    let pages = plane.pages();
    let arms = pages
        .iter()
        .map(|&[page, first, last]| format!("{} => Some(({first}, {last}))", BYTE.write(page as u64)));
    let opens = [opened(p, "casing::specs::Reading", &["page_of"]), opened(p, LISTS, &["pages#"])];
    let head = "page(page: u16) -> Option<(usize, usize)>";
    method(head, &opens.concat(), &arms.collect::<Vec<_>>(), "None")
}

fn multis(p: usize, plane: &Plane) -> String {
    let in_plane = |low: u16| if low == 0 { 0 } else { (p as u32) << 16 | u32::from(low) };
    let arms = plane.multi.iter().enumerate().map(|(k, number)| {
        let [first, second, third] = [0, 1, 2].map(|at| in_plane(plane.to[at][k]));
        format!("0x{number:04X} => Some((0x{first:04X}, 0x{second:04X}, 0x{third:04X}))")
    });
    let opens = [
        opened(p, "casing::specs::Rows", &["multiple", "first_row", "zip"]),
        opened(p, LISTS, &["multi#", "multi#_first", "multi#_second", "multi#_third"]),
    ];
    let head = "multi(low: u16) -> Option<(u32, u32, u32)>";
    method(head, &opens.concat(), &arms.collect::<Vec<_>>(), "None")
}
