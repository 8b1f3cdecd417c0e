//! The committed table files, read as text, held against the committed answers. This needs no sources:
//! the tables in the code and the lists of specs/ are one and the same, and they decode to the answers.

use crate::layout::wide;
use crate::{arms, bitset::Bitset, printable, rows, skip::Skip, source};
use reference::compare::{self, Scalars, ALL, NON_ASCII};
use reference::data::Data;
use reference::lists::{self, Rows};
use reference::ranges::Ranges;
use std::{fs, path::Path};

struct Crate<'a> {
    name: &'a str,
    table: String,
    specs: String,
    unicode: String,
}

fn unsigned(numbers: Vec<i64>) -> Vec<u64> {
    numbers.into_iter().map(|number| number as u64).collect()
}

/// The numbers of an antt list.
fn list(text: &str, name: &str) -> Vec<u64> {
    let (_, body) = text.split_once(&format!("\n{name} =\n")).unwrap_or_else(|| panic!("no list {name}"));
    unsigned(source::numbers(body.split_once("[]").expect("the list's end").0))
}

fn of_flat(flat: &[u64]) -> Ranges {
    Ranges(flat.chunks_exact(2).map(|pair| (pair[0] as u32, pair[1] as u32)).collect())
}

fn narrow<T: TryFrom<u64>>(numbers: Vec<u64>) -> Vec<T> {
    numbers.into_iter().map(|number| T::try_from(number).ok().expect("a number of the type")).collect()
}

impl Crate<'_> {
    fn read<'a>(root: &Path, name: &'a str) -> Crate<'a> {
        let text = |file: &str| fs::read_to_string(root.join("crates").join(name).join(file)).expect(name);
        Crate {
            name,
            table: text("src/table.rt"),
            specs: text("specs/Table.antt"),
            unicode: text("specs/Unicode.antt"),
        }
    }

    /// The numbers of a constant; none where the table leaves it out.
    fn constant(&self, name: &str) -> Vec<u64> {
        if !self.table.contains(&format!(" {name}: ")) {
            return Vec::new();
        }
        unsigned(source::numbers(source::item(&self.table, name)))
    }

    /// What the table says of a plane: the `impl` of its type.
    fn plane(&self, plane: &str) -> &str {
        let head = format!("\nimpl Plane<{plane}> for ");
        let (_, text) = self.table.split_once(&head).expect("the plane");
        text.split_once("\n}\n").expect("the end of the `impl`").0
    }

    /// The lists of specs/, in this order, one after the other.
    fn lists(&self, names: &[String]) -> Vec<u64> {
        names.iter().flat_map(|name| list(&self.specs, &crate::files::snake(name))).collect()
    }

    /// The constants are the lists of specs/, in this order.
    fn same(&self, names: &[String]) -> bool {
        let constants = names.iter().flat_map(|name| self.constant(name)).collect();
        self.same_numbers(constants, names)
    }

    /// What the code holds is the lists of specs/, in this order.
    fn same_numbers(&self, numbers: Vec<u64>, names: &[String]) -> bool {
        compare::list(&format!("{}, code against specs", self.name), numbers, &self.lists(names))
    }
}

fn names(text: &str) -> Vec<String> {
    text.split(' ').map(String::from).collect()
}

/// The same names for both planes.
fn of_planes(text: &str) -> Vec<String> {
    ["0", "1"].iter().flat_map(|plane| names(&text.replace('#', plane))).collect()
}

/// `decode` gives the numbers that the code holds, in the order of the lists named, and the set that they stand for.
fn property(
    root: &Path,
    data: &Data,
    property: &str,
    lists: &str,
    decode: fn(&Crate) -> (Vec<u64>, Ranges),
) -> bool {
    let name = format!("table_{property}");
    let table = Crate::read(root, &name);
    let whole = data.property(property);
    let flat =
        fs::read_to_string(root.join("crates").join(&name).join("specs/Flat.antt")).expect("Flat.antt");
    let own = whole.without_ascii();
    let (numbers, decoded) = decode(&table);
    let decoded = decoded.answers();
    table.same_numbers(numbers, &names(lists))
        & compare::property(&format!("{name}, table decoded against data"), ALL, &own, |c| {
            decoded[c as usize]
        })
        & compare::list(&format!("{name}, flat against data"), list(&flat, "flat"), &own.flat())
        & compare::list(
            &format!("{name}, unicode against data"),
            list(&table.unicode, "unicode"),
            &whole.flat(),
        )
}

/// The header words of the Rust are the same but for the closing sum: the last boundary and 0x110000.
fn rust_headers(root: &Path, property: &str) -> bool {
    let name = format!("table_{property}");
    let table = Crate::read(root, &name);
    let mut words = table.constant("HEADERS");
    let last = skip(&table).1 .0.last().expect("a range").1;
    let closing = words.last_mut().expect("a header");
    *closing = (*closing >> 21 << 21) + (last + 1 + 0x110000) as u64;
    compare::list(
        &format!("{name}, rust_headers against constants"),
        list(&table.specs, "rust_headers"),
        &words,
    )
}

fn skip(table: &Crate) -> (Vec<u64>, Ranges) {
    let (headers, offsets) = (table.constant("HEADERS"), table.constant("OFFSETS"));
    let flat = Skip::of_words(&headers, &offsets).flat();
    ([headers, offsets].concat(), flat)
}

/// The marks in the code are those of specs/, and of the buckets that the answers reach into.
fn marks(root: &Path, data: &Data, property: &str) -> bool {
    let folder = root.join("crates").join(format!("table_{property}"));
    let text = |file: &str| fs::read_to_string(folder.join(file)).expect(file);
    let listed = list(&text("specs/Marks.antt"), "marks");
    let code = arms::answers(&text("src/marks.rt"), "marks_at").concat();
    let reached = crate::bitset::marks(&data.property(property).without_ascii());
    compare::list(&format!("table_{property}, marks, code against specs"), code, &listed)
        & compare::list(&format!("table_{property}, marks against data"), listed, &reached)
}

fn bitset(table: &Crate) -> (Vec<u64>, Ranges) {
    let text = &table.table;
    let (_, length) = text.split_once(" CHUNK_MAP_LENGTH: usize = ").expect("the map's length");
    let mut chunk_map = arms::read_eights(text, "chunk_map_eight");
    chunk_map.truncate(length.split_once(';').expect("a number").0.parse().expect("a number"));
    let (words, pairs): (Vec<_>, Vec<_>) =
        arms::answers(text, "word_at").into_iter().partition(|numbers| numbers.len() == 1);
    let canonical = words.concat();
    let which = |word: u64| canonical.iter().position(|&other| other == word).expect("a canonical word");
    let bitset = Bitset {
        chunk_map,
        chunks: arms::read_eights(text, "chunks_eight"),
        mapped_word: pairs.iter().map(|pair| which(pair[1]) as u8).collect(),
        mapping: pairs.iter().map(|pair| pair[0] as u8).collect(),
        canonical,
    };
    let numbers = [
        wide(&bitset.chunk_map),
        wide(&bitset.chunks),
        bitset.canonical.clone(),
        wide(&bitset.mapped_word),
        wide(&bitset.mapping),
    ];
    (numbers.concat(), Ranges::of(|number| bitset.contains(number)))
}

fn small(root: &Path, data: &Data, property: &str, file: &str) -> bool {
    let text = fs::read_to_string(root.join("crates/properties/specs").join(file)).expect(file);
    let what = format!("properties, {file} against data");
    compare::list(&what, list(&text, "unicode"), &data.property(property).flat())
}

/// What the tables of printable decide: below it is ASCII's, above the nine spans', both in the code.
const BY_TABLE: Scalars = '\u{7F}'..='\u{1FFFF}';

fn printables(root: &Path, data: &Data) -> bool {
    let table = Crate::read(root, "printable");
    let decoded = ["0", "1"].map(|plane| {
        let constant = |name: &str| narrow(table.constant(&name.replace('#', plane)));
        let (high, count) = (constant("SINGLETONS#_HIGH"), constant("SINGLETONS#_COUNT"));
        printable::Plane { high, count, low: constant("SINGLETONS#_LOW"), normal: constant("NORMAL#") }
            .answers()
    });
    let decoded = decoded.concat();
    let unprintable = of_flat(&list(&table.unicode, "unprintable")).answers();
    let whole = data.property("printable");
    table.same(&of_planes("SINGLETONS#_HIGH SINGLETONS#_COUNT SINGLETONS#_LOW NORMAL#"))
        & compare::property("printable, table decoded against data", BY_TABLE, whole, |c| decoded[c as usize])
        & compare::property("printable, unprintable against data", ALL, whole, |c| !unprintable[c as usize])
}

fn planes(table: &Crate) -> rows::Planes {
    ["0", "1"].map(|plane| {
        let text = table.plane(plane);
        let fours = arms::answers(text, "four").concat();
        let words: Vec<u64> = fours.into_iter().filter(|&word| word != 0).collect();
        let field = |low: u32| words.iter().map(|word| word >> low & 0xFFFF).collect::<Vec<u64>>();
        let multis = arms::read(text, "multi");
        let of_multis = |at: usize| narrow(multis.iter().map(|row| row[at] & 0xFFFF).collect());
        rows::Plane {
            starts: narrow(field(0)),
            ends: narrow(field(16)),
            steps: narrow(field(32)),
            deltas: narrow(field(48)),
            multi: of_multis(0),
            to: [1, 2, 3].map(of_multis),
        }
    })
}

/// The ends that are halved are the lists of specs/.
fn ends_same(table: &Crate) -> bool {
    let ends = |plane: &&str| arms::answers(table.plane(plane), "end").concat();
    table.same_numbers(["0", "1"].iter().flat_map(ends).collect(), &of_planes("ENDS#"))
}

/// The rows' words and the pages are the lists of specs/.
fn arms_same(table: &Crate, planes: &rows::Planes) -> bool {
    let numbers = |plane: &rows::Plane| {
        let steps = plane.steps.iter().map(|&step| step.into()).collect();
        let [first, second, third] = plane.to.clone();
        let single = [plane.starts.clone(), plane.ends.clone(), steps, plane.deltas.clone()];
        [single.concat(), plane.multi.clone(), first, second, third].concat()
    };
    let rows: Vec<u64> = planes.iter().flat_map(numbers).map(u64::from).collect();
    let pages: Vec<u64> =
        ["0", "1"].iter().flat_map(|plane| arms::read(table.plane(plane), "page").concat()).collect();
    compare::list(
        &format!("{}, rows against specs", table.name),
        rows,
        &table
            .lists(&of_planes("STARTS# ENDS# STEPS# DELTAS# MULTI# MULTI#_FIRST MULTI#_SECOND MULTI#_THIRD")),
    ) & compare::list(&format!("{}, pages against specs", table.name), pages, &table.lists(&of_planes("pages#")))
}

fn casing(root: &Path, data: &Data, name: &str) -> bool {
    let folder = format!("casing_{name}");
    let table = Crate::read(root, &folder);
    let own = planes(&table);
    let upper = planes(&Crate::read(root, "casing_upper"));
    let then = (name == "title").then_some(&upper);
    let scalar = |numbers: [u32; 3]| numbers.map(|number| char::from_u32(number).expect("a scalar value"));
    let decoded = |c: char| {
        let found = rows::lookup(&own, c as u32).or_else(|| rows::lookup(then?, c as u32));
        scalar(found.unwrap_or([c as u32, 0, 0]))
    };
    let whole = data.mapping(&format!("to_{name}"));
    let listed = list(&table.unicode, "rows");
    let row = |row: &[u64]| (row[0] as u32, [row[1] as u32, row[2] as u32, row[3] as u32]);
    let unicode: Rows = listed.chunks_exact(4).map(row).collect();
    let listed = |c: char| scalar(lists::mapped(&unicode, c as u32));
    // ASCII letters change by code and not by rows.
    ends_same(&table)
        & arms_same(&table, &own)
        & compare::mapping(&format!("{folder}, table decoded against data"), NON_ASCII, whole, decoded)
        & compare::mapping(&format!("{folder}, unicode against data"), ALL, whole, listed)
}

pub fn check(root: &Path, data: &Data) -> bool {
    let mut pass = true;
    for name in ["alphabetic", "numeric", "titlecase"] {
        pass &= property(root, data, name, "HEADERS OFFSETS", skip) & rust_headers(root, name);
    }
    pass &= marks(root, data, "numeric");
    for name in ["lowercase", "uppercase"] {
        pass &= property(root, data, name, "CHUNK_MAP CHUNKS CANONICAL MAPPED_WORD MAPPING", bitset);
    }
    pass &= small(root, data, "whitespace", "WhiteSpace.antt") & small(root, data, "control", "Control.antt");
    pass &= printables(root, data);
    for name in ["lower", "upper", "title"] {
        pass &= casing(root, data, name);
    }
    pass
}
