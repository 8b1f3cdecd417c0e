//! The properties: skip tables, bitsets, and the two that have no table.

use super::{list_of_ranges, of_rust, of_unicode, File, Inputs, DECIMAL, UNICODE_DATA};
use crate::arms::{self, Accessor, Arm};
use crate::bitset::{self, Bitset};
use crate::layout::{wide, Consts, Form, Lists};
use crate::{skip::Skip, source};
use reference::counts::{counts, Counts};
use reference::{lists, ranges::Ranges, scalars};

/// The opening comment of unicode_data.rs holds of a property: its tables hold no ASCII, and the
/// span there ends one above the last member.
fn assert_counts(flat: &Ranges, counts: Counts) {
    assert_eq!(flat.points(), counts.points);
    assert_eq!(flat.0.len(), counts.ranges);
    assert_eq!(flat.0[0].0, counts.first);
    assert_eq!(flat.0.last().unwrap().1 + 1, counts.end);
}

/// The decoded list answers as the compiled Rust and as Unicode's list, whose ASCII part is its own.
fn assert_answers(flat: &Ranges, unicode: &Ranges, rust: fn(char) -> bool) {
    assert_eq!(*flat, unicode.without_ascii(), "Unicode's list differs");
    let answers = flat.answers();
    assert!(scalars().filter(|c| !c.is_ascii()).all(|c| answers[c as usize] == rust(c)));
}

fn flat_and_unicode(folder: &str, property: &str, list: &str, flat: &Ranges, unicode: &Ranges) -> [File; 2] {
    let says = format!(
        "{property} without ASCII, decoded from the table: {} ranges, first and last of each",
        flat.0.len()
    );
    let flat = list_of_ranges(&of_rust(UNICODE_DATA), &says, "flat", flat);
    let says = format!("{property}, ASCII included: {} ranges, first and last of each", unicode.0.len());
    let unicode = list_of_ranges(&of_unicode(list), &says, "unicode", unicode);
    [(format!("{folder}/specs/Flat.antt"), flat), (format!("{folder}/specs/Unicode.antt"), unicode)]
}

/// `module` is the table's module in unicode_data.rs, `comment` its name in the opening comment.
pub fn skip(inputs: &Inputs, property: &str, module: &str, comment: &str) -> Vec<File> {
    let text = inputs.source(UNICODE_DATA);
    let rust = Skip::read(source::module(&text, module));
    let house = rust.house();
    let flat = rust.flat();
    let list = format!("{comment}.txt");
    let unicode = lists::ranges(&inputs.list(&list));
    assert_counts(&flat, counts(&text, comment));
    assert_answers(&flat, &unicode, inputs.reference.property(property));
    assert_eq!(house.flat(), flat);
    let packed = Skip::pack(&flat);
    assert!(packed.headers == house.headers && packed.offsets == house.offsets, "packs otherwise");

    let folder = format!("crates/table_{property}");
    let word = Form::Hex(8);
    let headers_say = "header words: start index times 2^21 plus prefix sum, the last sum by the house rule";
    let offsets_say = "offsets: one for each boundary, and one that closes";
    let mut consts = Consts::new(&of_rust(UNICODE_DATA));
    consts.add(headers_say, "HEADERS", "u32", word, &wide(&house.words()));
    consts.add(offsets_say, "OFFSETS", "u8", DECIMAL, &wide(&house.offsets));
    let mut table = Lists::new(&of_rust(UNICODE_DATA));
    table.add(headers_say, "headers", word, 1, &wide(&house.words()));
    table.add("header words with the closing sum of the Rust", "rust_headers", word, 1, &wide(&rust.words()));
    table.add(offsets_say, "offsets", DECIMAL, 1, &wide(&house.offsets));
    let mut files = vec![
        (format!("{folder}/src/table.rt"), consts.text()),
        (format!("{folder}/specs/Table.antt"), table.text()),
    ];
    files.extend(flat_and_unicode(&folder, property, &list, &flat, &unicode));
    files
}

/// The marks of a property that few characters have: they keep most numbers away from its skip table.
pub fn marks(inputs: &Inputs, property: &str, module: &str) -> Vec<File> {
    let flat = Skip::read(source::module(&inputs.source(UNICODE_DATA), module)).flat();
    let words = bitset::marks(&flat);
    let says = "whether a bucket of 64 numbers holds one at all, 64 buckets to a word, the lowest first";
    let mut specs = Lists::new(&of_rust(UNICODE_DATA));
    specs.add(says, "marks", Form::Hex(16), 1, &words);
    let folder = format!("table_{property}");
    let lists = format!("Rattle.{folder}.specs.Marks");
    let accessor = Accessor {
        says,
        name: "marks_at",
        index: "k",
        requires: "k < length marks",
        answers: "marks_at marks",
        opens: opened(&[("bitset::specs::Marks", "marks_at"), ("crate::specs::Marks", "marks")]),
        arms: words.iter().copied().map(Arm::Number).collect(),
    };
    let mut code = Consts::new(&of_rust(UNICODE_DATA));
    code.line("ghost use Rattle.std.specs.Prelude.{◌≡◌, ◌<◌, length};");
    code.line("ghost use Rattle.bitset.specs.Marks.{marks_at};");
    code.line(&format!("ghost use {lists}.{{marks}};"));
    code.comment("how many words there are");
    code.line(&format!("pub(crate) const MARKS_LENGTH: usize = {};", words.len()));
    code.text_of(&arms::unreached());
    code.text_of(&accessor.code());
    vec![
        (format!("crates/{folder}/src/marks.rt"), code.text()),
        (format!("crates/{folder}/specs/Marks.antt"), specs.text()),
    ]
}

pub fn bitset(inputs: &Inputs, property: &str, comment: &str) -> Vec<File> {
    let text = inputs.source(UNICODE_DATA);
    let table = Bitset::read(source::module(&text, property));
    let flat = Ranges::of(|number| table.contains(number));
    let list = format!("{comment}.txt");
    let unicode = lists::ranges(&inputs.list(&list));
    assert_counts(&flat, counts(&text, comment));
    assert_answers(&flat, &unicode, inputs.reference.property(property));

    let mut specs = Lists::new(&of_rust(UNICODE_DATA));
    let pairs_say = "the pairs: bit 7 shift, bit 6 invert, six bits by how much";
    for (says, name, form, group, numbers) in [
        ("the chunk of each 1,024 numbers", "chunk_map", DECIMAL, 1, wide(&table.chunk_map)),
        ("the chunks, 16 index bytes to each", "chunks", DECIMAL, 16, wide(&table.chunks)),
        ("the canonical words", "canonical", Form::Hex(16), 1, table.canonical.clone()),
        ("the pairs: which canonical word", "mapped_word", DECIMAL, 1, wide(&table.mapped_word)),
        (pairs_say, "mapping", DECIMAL, 1, wide(&table.mapping)),
    ] {
        specs.add(says, name, form, group, &numbers);
    }
    let folder = format!("table_{property}");
    let accessors = accessors(&table);
    let mut files = vec![
        (format!("crates/{folder}/src/table.rt"), bitset_code(&table, &folder, &accessors)),
        (format!("crates/{folder}/specs/Table.antt"), specs.text()),
    ];
    files.extend(flat_and_unicode(&format!("crates/{folder}"), property, &list, &flat, &unicode));
    files
}

/// The paths of definitions that a proof opens, from a module's path and its names, with spaces between.
fn opened(parts: &[(&str, &str)]) -> Vec<String> {
    parts
        .iter()
        .flat_map(|(module, names)| names.split(' ').map(move |name| format!("{module}::{name}")))
        .collect()
}

/// A bitset's tables as functions. Their names are read back by `committed`.
fn accessors(table: &Bitset) -> [Accessor; 3] {
    const LISTS: &str = "crate::specs::Table";
    const PACKED: (&str, &str) = ("bitset::specs::Packed", "eight joined");
    let pairs = table.mapped_word.iter().zip(&table.mapping);
    let mapped = pairs.map(|(&word, &mapping)| Arm::Mapped(mapping, table.canonical[word as usize]));
    [
        Accessor {
            says: "the chunk of each 1,024 numbers, eight bytes to an arm, the lowest first",
            name: "chunk_map_eight",
            index: "k",
            requires: "8 * k < length chunk_map",
            answers: "eight chunk_map",
            opens: opened(&[PACKED, (LISTS, "chunk_map")]),
            arms: arms::eights(&table.chunk_map),
        },
        Accessor {
            says: "the index bytes of the chunks, eight to an arm, the lowest first",
            name: "chunks_eight",
            index: "k",
            requires: "8 * k < length chunks",
            answers: "eight chunks",
            opens: opened(&[PACKED, (LISTS, "chunks")]),
            arms: arms::eights(&table.chunks),
        },
        Accessor {
            says: "the word of an index byte: the canonical words, and then the pairs, each by its mapping and its word",
            name: "word_at",
            index: "index",
            requires: "index < length canonical + length mapped_word",
            answers: "word_at canonical mapped_word mapping",
            opens: opened(&[
                ("bitset::specs::Bitsets", "word_at"),
                (LISTS, "canonical mapped_word mapping"),
            ]),
            arms: table.canonical.iter().copied().map(Arm::Number).chain(mapped).collect(),
        },
    ]
}

fn bitset_code(table: &Bitset, folder: &str, accessors: &[Accessor]) -> String {
    let mut text = format!(
        "// Generated from {} by `oracle/make`; do not edit.\n\
        // A constant array would be built anew at each use; a `match` with an arm for each index is one load.\n\
        ghost use Rattle.std.specs.Prelude.{{◌≡◌, ◌+◌, ◌*◌, ◌<◌, length}};\n\
        ghost use Rattle.bitset.specs.Bitsets.{{word_at}};\n\
        ghost use Rattle.bitset.specs.Packed.{{eight}};\n\
        ghost use Rattle.{folder}.specs.Table.{{chunk_map, chunks, canonical, mapped_word, mapping}};\n\n\
        use bitset::kernel::mapped;\n\n\
        // how many chunks of 1,024 numbers the map has\n\
        pub const CHUNK_MAP_LENGTH: usize = {};\n",
        of_rust(UNICODE_DATA),
        table.chunk_map.len(),
    );
    text += &arms::unreached();
    accessors.iter().fold(text, |text, accessor| text + &accessor.code())
}

/// The two small properties, which have no table.
pub fn small(inputs: &Inputs, property: &str, file: &str, list: &str) -> Vec<File> {
    let unicode = lists::ranges(&inputs.list(list));
    assert_eq!(unicode, Ranges::of_scalars(inputs.reference.property(property)));
    let says = format!("{property}: {} ranges, first and last of each", unicode.0.len());
    let text = list_of_ranges(&of_unicode(list), &says, "unicode", &unicode);
    vec![(format!("crates/properties/specs/{file}.antt"), text)]
}
