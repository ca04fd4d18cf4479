//! Dumps that are made to be slow to read: `hostile KIND COUNT > FILE`. Built by `rustc --edition 2024 -O`. `hostile`
//! without words prints the kinds. `hostile skip` prints the list of fields to skip when `named_fields` is read. The
//! kind `random_ids`, which is not printed, is for `dumps.sh`.
//!
//! `hostile labels KIND COUNT > LABELS` prints the labels for a dump of a kind that is made to be slow to label.
//! `hostile labels` prints these kinds.

#[path = "plain/rows/file.rs"]
#[allow(dead_code)]
mod file;

use file::File;
use std::io::{self, Write};
use std::process::ExitCode;

const CLASS: u64 = 0x1000_0000;
const OBJECT: u64 = 0x4000_0000;
const INSTANCE: u64 = 0xD000_0000;
const ODD: u64 = 0x9e37_79b9_7f4a_7c15;
/// `ODD * INVERSE` is 1 in 64 bits.
const INVERSE: u64 = 0xf1de_83e1_9937_733d;

type Build = fn(File, u64) -> File;

const KINDS: [(&str, Build); 31] = [
    ("chain", chain),
    ("chain_upwards", chain_upwards),
    ("cycle", cycle),
    ("instances_below", instances_below),
    ("inherited_fields", inherited_fields),
    ("named_fields", named_fields),
    ("colliding_classes", colliding_classes),
    ("crowded_classes", crowded_classes),
    ("one_id", one_id),
    ("crowded_ids", crowded_ids),
    ("one_bucket", one_bucket),
    ("falling_ids", falling_ids),
    ("one_page", one_page),
    ("alternating_pages", alternating_pages),
    ("crowded_pages", crowded_pages),
    ("falling_pages", falling_pages),
    ("full_page", full_page),
    ("one_repeat", one_repeat),
    ("far_page", far_page),
    ("sparse_pages", sparse_pages),
    ("too_sparse_pages", too_sparse_pages),
    ("below_32_bits", below_32_bits),
    ("above_32_bits", above_32_bits),
    ("unaligned_last", unaligned_last),
    ("names", names),
    ("one_name", one_name),
    ("crowded_names", crowded_names),
    ("list", list),
    ("elements", elements),
    ("array_of_all", array_of_all),
    ("roots", roots),
];

/// For `dumps.sh`. The time to read it depends on the caches, so twice the size may take more than twice the time.
const RANDOM_IDS: (&str, Build) = ("random_ids", random_ids);

type Labels = fn(u64) -> String;

/// For `hostile_labels.sh`.
const LABELLED: [(&str, Build, Labels); 15] = [
    ("labelled_list", list, label_each),
    ("shuffled_labels", list, label_each_shuffled),
    ("labelled_fields", chain_of_classes, label_each_class),
    ("labelled_cycle", ring, label_each),
    ("labelled_elements", array_of_all, label_elements),
    ("wide_class", wide_class, label_fields),
    ("many_labels", list, label_first),
    ("one_label", list, label_all_alike),
    ("two_chains", two_chains, label_chains),
    ("apart_below", apart_below, label_each),
    ("cuts_and_roots", list, cut_each),
    ("missing_places", list, label_missing),
    ("comb", comb, label_comb),
    ("nested_comb", nested_comb, label_nested_comb),
    ("late_references", late_references, label_late_references),
];

fn classes_in_a_chain(heap: File, count: u64) -> File {
    (1..count).fold(heap.class(CLASS, 0, &[]), |heap, above| heap.class(CLASS + above, CLASS + above - 1, &[]))
}

/// `count` classes, each the superclass of the next, and `count` instances of the lowest.
fn chain(file: File, count: u64) -> File {
    let lowest = CLASS + count - 1;
    let instances = |heap| (0..count).fold(heap, |heap: File, number| heap.instance(OBJECT + number, lowest, &[]));
    file.heap(|heap| instances(classes_in_a_chain(heap, count)).root(OBJECT))
}

/// Like `chain`, but each class comes before its superclass.
fn chain_upwards(file: File, count: u64) -> File {
    let classes = |heap| (1..count).fold(heap, |heap: File, above| heap.class(CLASS + above - 1, CLASS + above, &[]));
    let instances = |heap| (0..count).fold(heap, |heap: File, number| heap.instance(OBJECT + number, CLASS, &[]));
    file.heap(|heap| instances(classes(heap).class(CLASS + count - 1, 0, &[])).root(OBJECT))
}

/// `count` classes whose superclasses form a circle, and `count` subclasses of one of them.
fn cycle(file: File, count: u64) -> File {
    let top = CLASS + count - 1;
    let below = |heap| (0..count).fold(heap, |heap: File, number| heap.class(CLASS + count + number, CLASS, &[]));
    file.heap(|heap| {
        let circle = (1..count)
            .fold(heap.class(CLASS, top, &[]), |heap, number| heap.class(CLASS + number, CLASS + number - 1, &[]));
        below(circle)
    })
}

/// `count` classes, each the superclass of the next, and `count` instances of the lowest, each with a reference to the
/// next. Only the highest class declares a field.
fn instances_below(file: File, count: u64) -> File {
    let lowest = CLASS + count - 1;
    let next = |number: u64| ((OBJECT + number + 1) as u32).to_be_bytes();
    file.heap(|heap| {
        let highest = heap.class(CLASS, 0, &[2]);
        let classes = (1..count).fold(highest, |heap, above| heap.class(CLASS + above, CLASS + above - 1, &[]));
        let instances = (0..count).fold(classes, |heap, number| heap.instance(OBJECT + number, lowest, &next(number)));
        instances.root(OBJECT)
    })
}

/// A class with as many fields as possible, `count` subclasses of it, and an instance of one of these.
fn inherited_fields(file: File, count: u64) -> File {
    let fields = [2; 65_535];
    let values: Vec<u8> = (0..fields.len()).flat_map(|_| (OBJECT as u32).to_be_bytes()).collect();
    file.heap(|heap| {
        let base = heap.class(CLASS, 0, &fields);
        let all = (1..=count).fold(base, |heap, number| heap.class(CLASS + number, CLASS, &[]));
        all.instance(OBJECT, CLASS + count, &values).root(OBJECT)
    })
}

/// The name of the field `number` of `named_fields`. All have one length and differ only in the last digits.
fn field_name(number: u64) -> String {
    format!("a_field_with_a_name_that_is_told_late_{number:08}")
}

/// For `named_fields`, a list of 64 fields of class `C` that it does not declare; they differ from its own only in the
/// last digits.
fn skip_list() -> String {
    let entries: Vec<_> = (0..64).map(|number| format!("C.{}", field_name(99_999_936 + number))).collect();
    entries.join(",")
}

/// `count` fields in classes that are all called `C`, and an instance of the first class. Each class but the last has
/// as many fields as possible, and none has two fields of one name.
fn named_fields(file: File, count: u64) -> File {
    const MOST: u64 = 65_535;
    let fields: Vec<u64> = (0..count).step_by(MOST as usize).map(|before| MOST.min(count - before)).collect();
    let named = file.string(1, b"C");
    let strings = (0..fields[0]).fold(named, |file, field| file.string(2 + field, field_name(field).as_bytes()));
    let classes = CLASS..CLASS + fields.len() as u64;
    let loaded = classes.clone().fold(strings, |file, class| file.load(class, 1));
    loaded.heap(|heap| {
        let all = classes.zip(&fields).fold(heap, |heap, (class, fields)| {
            // as in `File::class`, but each field has a name of its own
            let head = heap.raw(&[0x20]).ids(&[class]).number(4, 0).ids(&[0; 6]).number(4, 0).number(4, 0);
            (0..*fields).fold(head.number(2, *fields), |heap, field| heap.ids(&[2 + field]).raw(&[2]))
        });
        all.instance(OBJECT, CLASS, &vec![0; 4 * fields[0] as usize]).root(OBJECT)
    })
}

/// A class for each of `ids`, and an instance of each class.
fn classes_with_instances(file: File, ids: &[u64]) -> File {
    file.heap(|heap| {
        let classes = ids.iter().fold(heap, |heap, id| heap.class(*id, 0, &[]));
        let instances = ids.iter().zip(INSTANCE..);
        instances.fold(classes, |heap, (id, object)| heap.instance(object, *id, &[])).root(INSTANCE)
    })
}

/// The hash of `id` in a map of the toolchain's `indexmap`, by a `FoldHasher` with its fixed seed.
fn hash(id: u64) -> u64 {
    let product = u128::from(id ^ 0x243f_6a88_85a3_08d3) * u128::from(ODD ^ 16);
    let folded = product as u64 ^ (product >> 64) as u64;
    folded ^ folded >> 32
}

/// `count` classes whose hashes ([`hash`]) all lead to the first thousandth of the groups of an `indexmap`. A look-up
/// begins there and tries one group after another.
fn colliding_classes(file: File, count: u64) -> File {
    let groups = count.div_ceil(9).next_power_of_two();
    let first = (groups / 1024).max(1);
    let ids = (CLASS..INSTANCE).filter(|id| hash(*id) & (groups - 1) < first);
    classes_with_instances(file, &ids.take(count as usize).collect::<Vec<_>>())
}

/// `count` classes. `count - 1` of their IDs follow one another once they are multiplied by `ODD`, as heapmark does to
/// spread them; one is far away.
fn crowded_classes(_: File, count: u64) -> File {
    let spread = (1..count).chain([u64::MAX]);
    classes_with_instances(File::header(8), &spread.map(|number| number.wrapping_mul(INVERSE)).collect::<Vec<_>>())
}

/// `count` objects with one ID.
fn one_id(file: File, count: u64) -> File {
    file.heap(|heap| (0..count).fold(heap, |heap, _| heap.primitives(OBJECT, 8, 0, &[])))
}

/// `count` arrays whose IDs follow one another, each with a reference to the next, and an object whose ID is far away.
fn crowded_ids(file: File, count: u64) -> File {
    file.heap(|heap| {
        let far = heap.class(CLASS, 0, &[]).primitives(u64::from(u32::MAX), 8, 0, &[]);
        let all = (0..count).fold(far, |heap, number| heap.objects(OBJECT + number, CLASS, &[OBJECT + number + 1]));
        all.root(OBJECT)
    })
}

/// Like `crowded_ids`, with IDs of eight bytes. In an index by leading bits all of them but one are in one bucket,
/// however small the buckets are.
fn one_bucket(_: File, count: u64) -> File {
    File::header(8).heap(|heap| {
        let far = heap.class(CLASS, 0, &[]).primitives(u64::MAX, 8, 0, &[]);
        let all = (0..count).fold(far, |heap, number| heap.objects(OBJECT + number, CLASS, &[OBJECT + number + 1]));
        all.root(OBJECT)
    })
}

/// `count` arrays, each with a lower ID than the one before.
fn falling_ids(file: File, count: u64) -> File {
    file.heap(|heap| {
        let class = heap.class(CLASS, 0, &[]);
        (0..count).rev().fold(class, |heap, number| heap.objects(OBJECT + number, CLASS, &[OBJECT + number / 2]))
    })
}

/// The ID, a multiple of eight, of the place `place` of the page `page`. A page has 64 places.
fn on_page(page: u64, place: u64) -> u64 {
    OBJECT + 512 * page + 8 * place
}

/// `count` objects on one page, again and again from its last place down to its first: no object's place is one above
/// that of the object before.
fn one_page(file: File, count: u64) -> File {
    let id = |number| on_page(0, 63 - number % 64);
    file.heap(|heap| (0..count).fold(heap, |heap, number| heap.primitives(id(number), 8, 0, &[])))
}

/// `count` arrays, alternately on two pages until 63 places of each are taken, then on the next two: no two that follow
/// one another are on one page. Each refers to the next, and to the last place of its page, which no object has.
fn in_turn(heap: File, count: u64) -> File {
    let page = |number: u64| number / 126 * 2 + number % 2;
    let id = |number: u64| on_page(page(number), number % 126 / 2);
    let class = heap.class(CLASS, 0, &[]);
    let all = (0..count)
        .fold(class, |heap, number| heap.objects(id(number), CLASS, &[id(number + 1), on_page(page(number), 63)]));
    all.root(OBJECT)
}

fn alternating_pages(file: File, count: u64) -> File {
    file.heap(|heap| in_turn(heap, count))
}

/// Like `alternating_pages`, with IDs of eight bytes, and with one ID far away. So in an index by leading bits all
/// others are in one bucket.
fn crowded_pages(_: File, count: u64) -> File {
    File::header(8).heap(|heap| in_turn(heap.primitives(u64::MAX - 7, 8, 0, &[]), count))
}

/// A class with the first of `ids`, and an array with each of the other IDs. The IDs have eight bytes. Each array
/// refers to the next one, and the last array to the class.
fn arrays(mut ids: impl Iterator<Item = u64>) -> File {
    let class = ids.next().unwrap_or(CLASS);
    let mut ids = ids.peekable();
    File::header(8).heap(|heap| {
        let mut heap = heap.class(class, 0, &[]).root(ids.peek().copied().unwrap_or(class));
        while let Some(id) = ids.next() {
            heap = heap.objects(id, class, &[ids.peek().copied().unwrap_or(class)]);
        }
        heap
    })
}

/// `count` IDs on `pages` pages. Each is on the page below that of the ID before it, or on the highest page if the ID
/// before it is on the lowest. The places of each page are taken from the first on.
fn falling(pages: u64, count: u64) -> impl Iterator<Item = u64> {
    (0..count).map(move |number| on_page(pages - 1 - number % pages, number / pages))
}

/// `count` objects on as few pages as possible; no two that follow one another are on one page.
fn falling_pages(_: File, count: u64) -> File {
    arrays(falling(count.div_ceil(64), count))
}

/// Like `falling_pages`, and one more object, with an ID that another has.
fn one_repeat(_: File, count: u64) -> File {
    arrays(falling(count.div_ceil(64), count).chain([on_page(0, 7)]))
}

/// Like `falling_pages`, and after them one more object, alone on a page far above. So no sample has it.
fn far_page(_: File, count: u64) -> File {
    let pages = count.div_ceil(64);
    arrays(falling(pages, count).chain([on_page(3 * pages, 0)]))
}

/// `count` objects, two on each page, on as many pages as narrow entries may span.
fn sparse_pages(_: File, count: u64) -> File {
    arrays(falling(count / 2, count))
}

/// `count` objects on more pages than narrow entries may span.
fn too_sparse_pages(_: File, count: u64) -> File {
    arrays(falling(count / 2 + 2, count))
}

/// A full page, and above it `count / 2 - 1` pages with two objects each, at the first and last place.
fn full_page(_: File, count: u64) -> File {
    let pages = count / 2;
    let alone = (1..pages).rev().map(|page| on_page(page, 0));
    let again = (1..pages).rev().map(|page| on_page(page, 63));
    arrays(alone.chain(again).chain((0..64).rev().map(|place| on_page(0, place))))
}

/// `falling_pages` and one more object: its ID, divided by eight and counted from the lowest, is 2^32 - 1.
fn below_32_bits(_: File, count: u64) -> File {
    arrays(falling(count.div_ceil(64), count).chain([on_page(1 << 26, 0) - 8]))
}

/// Like `below_32_bits`, but its ID, so divided and counted, is 2^32.
fn above_32_bits(_: File, count: u64) -> File {
    arrays(falling(count.div_ceil(64), count).chain([on_page(1 << 26, 0)]))
}

/// `count` arrays with IDs that are multiples of eight, each with a reference to the next, and after them an object
/// with an odd ID.
fn unaligned_last(file: File, count: u64) -> File {
    let id = |number: u64| OBJECT + 8 * number;
    file.heap(|heap| {
        let class = heap.class(CLASS, 0, &[]);
        let all = (0..count).fold(class, |heap, number| heap.objects(id(number), CLASS, &[id(number + 1)]));
        all.primitives(id(count) + 1, 8, 0, &[]).root(OBJECT)
    })
}

/// `count` classes, each with a name of its own and an instance.
fn names(file: File, count: u64) -> File {
    let strings = (0..count).fold(file, |file, number| file.string(number + 1, format!("C{number}").as_bytes()));
    let loaded = (0..count).fold(strings, |file, number| file.load(CLASS + number, number + 1));
    loaded.heap(|heap| {
        (0..count).fold(heap, |heap, number| {
            let class = heap.class(CLASS + number, 0, &[]).instance(OBJECT + number, CLASS + number, &[]);
            class.root(OBJECT + number)
        })
    })
}

/// `count` strings, all with one ID, and `count` loaded classes, all with another ID.
fn one_name(file: File, count: u64) -> File {
    let strings = (0..count).fold(file, |file, _| file.string(1, b"A"));
    let loaded = (0..count).fold(strings, |file, _| file.load(CLASS, 1));
    loaded.heap(|heap| heap.class(CLASS, 0, &[]).instance(OBJECT, CLASS, &[]).root(OBJECT))
}

/// `count` strings and `count` loaded classes, with IDs of eight bytes that follow one another, and one more string and
/// loaded class with an ID far away. Each loaded class has a name; each but the far one has a class dump and an
/// instance.
fn crowded_names(_: File, count: u64) -> File {
    let far = File::header(8).string(u64::MAX, b"far").load(u64::MAX, u64::MAX);
    let strings = (0..count).fold(far, |file, number| file.string(number + 1, format!("C{number}").as_bytes()));
    let loaded = (0..count).fold(strings, |file, number| file.load(CLASS + number, number + 1));
    loaded.heap(|heap| {
        let classes = (0..count).fold(heap, |heap, number| heap.class(CLASS + number, 0, &[]));
        let instance = |heap: File, number| heap.instance(OBJECT + number, CLASS + number, &[]).root(OBJECT + number);
        (0..count).fold(classes, instance)
    })
}

/// A list of `count` instances, each with a reference to the next.
fn list(file: File, count: u64) -> File {
    file.heap(|heap| {
        let class = heap.class(CLASS, 0, &[2]);
        let next = |number: u64| ((OBJECT + number + 1) as u32).to_be_bytes();
        let all = (0..count).fold(class, |heap, number| heap.instance(OBJECT + number, CLASS, &next(number)));
        all.root(OBJECT)
    })
}

/// An array with `count` elements: in turn itself, null, and an object that is missing.
fn elements(file: File, count: u64) -> File {
    let elements: Vec<u64> = (0..count).map(|number| [OBJECT, 0, OBJECT + 1][(number % 3) as usize]).collect();
    file.heap(|heap| heap.class(CLASS, 0, &[]).objects(OBJECT, CLASS, &elements).root(OBJECT))
}

/// `count` instances, and an array that has each of them as an element.
fn array_of_all(file: File, count: u64) -> File {
    let elements: Vec<u64> = (1..=count).map(|number| OBJECT + number).collect();
    file.heap(|heap| {
        let array = heap.class(CLASS, 0, &[]).objects(OBJECT, CLASS, &elements);
        elements.iter().fold(array, |heap, object| heap.instance(*object, CLASS, &[])).root(OBJECT)
    })
}

/// `count` roots, alternately of an object and of one that is missing.
fn roots(file: File, count: u64) -> File {
    file.heap(|heap| {
        let object = heap.class(CLASS, 0, &[]).instance(OBJECT, CLASS, &[]);
        (0..count).fold(object, |heap, number| heap.root(OBJECT + number % 2))
    })
}

/// Permutes the numbers below `size`, a power of two: each step can be undone.
fn shuffled(number: u64, size: u64) -> u64 {
    let step = |number: u64, _| {
        let product = number.wrapping_mul(ODD) % size;
        product ^ product >> (size.ilog2() / 2 + 1)
    };
    (0..3).fold(number, step)
}

/// `count` instances with IDs in no order, multiples of eight from a range of 32 to 64 bytes an instance. Each refers
/// to two others, by which all are reached, and to a third at random.
fn random_ids(_: File, count: u64) -> File {
    let places = (4 * count).next_power_of_two();
    let id = |number: u64| if number < count { OBJECT + 8 * shuffled(number, places) } else { 0 };
    let values = |number: u64| {
        let any = shuffled(number, places) % count;
        [2 * number + 1, 2 * number + 2, any].map(|other| id(other).to_be_bytes()).concat()
    };
    File::header(8).string(1, b"Node").load(CLASS, 1).heap(|heap| {
        let class = heap.class(CLASS, 0, &[2, 2, 2]);
        let all = (0..count).fold(class, |heap, number| heap.instance(id(number), CLASS, &values(number)));
        all.root(id(0))
    })
}

/// The number of labels that a text may have.
const LABELS: u64 = 1 << 20;

/// An instance whose class has the ID `CLASS`, and whose fields refer to these objects.
fn linked(heap: File, object: u64, references: &[u64]) -> File {
    let values = heap.subs().ids(references).bytes;
    heap.instance(object, CLASS, &values)
}

/// `count` lines: for each number a label, and the first field of the object with that number.
fn lines(count: u64, label: impl Fn(u64) -> u64) -> String {
    (0..count).map(|number| format!("label {} object {} 1\n", label(number), OBJECT + number)).collect()
}

/// Each of `count` objects has a label of its own. From the label 1,048,576 on, these are the first labels again.
fn label_each(count: u64) -> String {
    lines(count, |number| number % LABELS)
}

/// Like `label_each`, with labels in no order.
fn label_each_shuffled(count: u64) -> String {
    lines(count, |number| shuffled(number % LABELS, LABELS))
}

/// One label for each of `count` objects.
fn label_all_alike(count: u64) -> String {
    lines(count, |_| 0)
}

/// `count` labels for the first object.
fn label_first(count: u64) -> String {
    (0..count.min(LABELS)).map(|label| format!("label {label} object {OBJECT} 1\n")).collect()
}

/// `count` labels, of places that the dump does not have, and one that it has.
fn label_missing(count: u64) -> String {
    let missing = |number| format!("label {} object {} {}\n", number % LABELS, OBJECT + number, 2 + number);
    (1..count).map(missing).collect::<String>() + &lines(1, |_| 0)
}

/// All objects are roots, and refer to nothing.
fn cut_each(count: u64) -> String {
    let line = |number| format!("cut object {0} 1\nroot {0}\n", OBJECT + number);
    (0..count).map(line).collect::<String>() + &lines(1, |_| 0)
}

/// A list of `count` instances, each of a class of its own that declares the field.
fn chain_of_classes(file: File, count: u64) -> File {
    let next = |number: u64| ((OBJECT + number + 1) as u32).to_be_bytes();
    file.heap(|heap| {
        let classes = (0..count).fold(heap, |heap, number| heap.class(CLASS + number, 0, &[2]));
        let instance = |heap: File, number| heap.instance(OBJECT + number, CLASS + number, &next(number));
        (0..count).fold(classes, instance).root(OBJECT)
    })
}

fn label_each_class(count: u64) -> String {
    (0..count).map(|number| format!("label {} class {} 1\n", number % LABELS, CLASS + number)).collect()
}

/// Like `list`, but the last instance refers to the first.
fn ring(file: File, count: u64) -> File {
    file.heap(|heap| {
        let next = |number| OBJECT + (number + 1) % count;
        let instance = |heap, number| linked(heap, OBJECT + number, &[next(number)]);
        (0..count).fold(heap.class(CLASS, 0, &[2]), instance).root(OBJECT)
    })
}

/// A label for each element of the array of `array_of_all`.
fn label_elements(count: u64) -> String {
    (0..count).map(|number| format!("label {} object {OBJECT} {}\n", number % LABELS, number + 1)).collect()
}

const FIELDS: u64 = 65_535;

/// Instances of a class with as many fields as possible: the first refers to the next one, the others to objects that
/// all have in common. The instances have `count` fields together, or somewhat more.
fn wide_class(file: File, count: u64) -> File {
    let instances = count.div_ceil(FIELDS);
    let leaves: Vec<u64> = (1..FIELDS).map(|number| INSTANCE + number).collect();
    file.heap(|heap| {
        let classes = heap.class(CLASS, 0, &[2; FIELDS as usize]).class(CLASS + 1, 0, &[]);
        let wide = (0..instances).fold(classes, |heap, number| {
            let references = [&[OBJECT + number + 1], &leaves[..]].concat();
            linked(heap, OBJECT + number, &references)
        });
        leaves.iter().fold(wide, |heap, leaf| heap.instance(*leaf, CLASS + 1, &[])).root(OBJECT)
    })
}

/// A label for each field.
fn label_fields(_: u64) -> String {
    (1..=FIELDS).map(|field| format!("label {field} class {CLASS} {field}\n")).collect()
}

/// Two lists of `count / 3` instances, and as many objects to which one instance of each list refers.
fn two_chains(file: File, count: u64) -> File {
    let count = count / 3;
    file.heap(|heap| {
        let start = heap.class(CLASS, 0, &[2, 2]).class(CLASS + 1, 0, &[]);
        let all = (0..count).fold(start, |heap, number| {
            let [one, other] = [0, count].map(|begin| OBJECT + begin + number);
            let below = INSTANCE + number;
            let next = |object| if number + 1 < count { object + 1 } else { 0 };
            let both = linked(linked(heap, one, &[next(one), below]), other, &[next(other), below]);
            both.instance(below, CLASS + 1, &[])
        });
        all.root(OBJECT).root(OBJECT + count)
    })
}

/// A label for each step along the lists: in turn one of the first list, one of the other. Every eighth label is in
/// both.
fn label_chains(count: u64) -> String {
    let count = count / 3;
    let label = |number| match number % count {
        step if step % 8 == 0 => 2 * step,
        step => 2 * step + number / count,
    };
    lines(2 * count, |number| label(number) % LABELS)
}

/// A list of `count / 2` instances, each with a reference to a further one, which refers to nothing.
fn apart_below(file: File, count: u64) -> File {
    let count = count / 2;
    file.heap(|heap| {
        let all = (0..count).fold(heap.class(CLASS, 0, &[2, 2]), |heap, number| {
            let (object, below) = (OBJECT + number, INSTANCE + number);
            linked(linked(heap, object, &[object + 1, below]), below, &[0, 0])
        });
        all.root(OBJECT)
    })
}

/// Two lists of `count / 2` instances, each with references to the next and the previous one. Both ends are roots: of
/// the first list its beginning is the first root, of the other its end. In reverse postorder, the objects of one list
/// lose their labels from the last to the first.
fn comb(file: File, count: u64) -> File {
    let count = count / 2;
    let (one, other) = (OBJECT, OBJECT + count);
    file.heap(|heap| {
        let all = [one, other].into_iter().fold(heap.class(CLASS, 0, &[2, 2]), |heap, begin| {
            (0..count).fold(heap, |heap, number| {
                let next = if number + 1 < count { begin + number + 1 } else { 0 };
                let previous = if number > 0 { begin + number - 1 } else { 0 };
                linked(heap, begin + number, &[next, previous])
            })
        });
        all.root(one).root(one + count - 1).root(other + count - 1).root(other)
    })
}

/// A label for each step forwards.
fn label_comb(count: u64) -> String {
    label_each(count / 2 * 2)
}

/// How long each of the four lists of `nested_comb` is.
fn nested(count: u64) -> u64 {
    count / 500
}

/// Two times two lists. The last object of the upper list refers to the last of the lower one, whose objects refer to
/// their neighbours and to the object beside them in the upper list. The first objects of both lists are roots, in one
/// order and in the other. Of one of the upper lists, in reverse postorder, each object takes a label from all objects
/// after it, in turn: so time and memory grow with the square of the lists' length.
fn nested_comb(file: File, count: u64) -> File {
    let count = nested(count);
    let all = |heap, upper: u64| {
        let lower = upper + 2 * count;
        (0..count).fold(heap, |heap, number| {
            let (is_last, object) = (number + 1 == count, lower + number);
            let up = if is_last { object } else { upper + number + 1 };
            let previous = if number > 0 { object - 1 } else { 0 };
            let next = if is_last { 0 } else { object + 1 };
            linked(linked(heap, upper + number, &[up, 0, 0]), object, &[previous, upper + number, next])
        })
    };
    file.heap(|heap| {
        let (one, other) = (OBJECT, OBJECT + count);
        let both = all(all(heap.class(CLASS, 0, &[2, 2, 2]), one), other);
        both.root(one).root(one + 2 * count).root(other + 2 * count).root(other)
    })
}

/// A label for each step along the upper lists.
fn label_nested_comb(count: u64) -> String {
    label_each(2 * nested(count))
}

/// How long each of the lists of `late_references` is.
fn late(count: u64) -> u64 {
    count / 500
}

/// Two times two lists: the last object of the first list refers to the beginning of the second one, whose objects each
/// refer to a further object, and these to the beginning of the first list. The beginnings of both lists are roots. If
/// the first list is visited again after each of the further objects, the time grows with the square of the lists'
/// length; the two times differ in the order of the fields, so one of them is in the slow order.
fn late_references(file: File, count: u64) -> File {
    let count = late(count);
    let all = |heap, first: u64, further_first: bool| {
        let [second, further] = [first + count, first + 2 * count];
        (0..count).fold(heap, |heap, number| {
            let next = if number + 1 < count { second + number + 1 } else { 0 };
            let one = linked(heap, first + number, &[first + number + 1, 0]);
            let (here, there) = (next, further + number);
            let both = linked(one, second + number, &if further_first { [there, here] } else { [here, there] });
            linked(both, further + number, &[first, 0])
        })
    };
    file.heap(|heap| {
        let (one, other) = (OBJECT, OBJECT + 3 * count);
        let both = all(all(heap.class(CLASS, 0, &[2, 2]), one, false), other, true);
        [one, one + count, other, other + count].into_iter().fold(both, |heap, root| heap.root(root))
    })
}

/// For each time, the same labels for the first root and for each step along the second list.
fn label_late_references(count: u64) -> String {
    let count = late(count);
    let times = [(0, OBJECT + count, 1), (2, OBJECT + 4 * count, 2)];
    let steps = |(root, second, field): (u64, u64, u64)| {
        let label = move |number| {
            let label = root * count + number;
            format!("label {label} object {} {field}\nlabel {label} root {root}\n", second + number)
        };
        (0..count).map(label)
    };
    times.into_iter().flat_map(steps).collect()
}

/// What the words say to print. None if they are wrong.
fn printed(words: &[&str]) -> Option<Vec<u8>> {
    if let ["skip"] = words {
        return Some(format!("{}\n", skip_list()).into_bytes());
    }
    let labelled = |kind: &str| LABELLED.iter().find(|(name, ..)| *name == kind);
    match words {
        ["labels", kind, count] => Some(labelled(kind)?.2(count.parse().ok()?).into_bytes()),
        [kind, count] => {
            let known = KINDS.iter().chain([&RANDOM_IDS]).find(|(name, _)| name == kind).map(|(_, build)| build);
            let build = known.or_else(|| Some(&labelled(kind)?.1))?;
            Some(build(File::header(4), count.parse().ok()?).bytes)
        }
        _ => None,
    }
}

fn main() -> ExitCode {
    let words: Vec<String> = std::env::args().skip(1).collect();
    let words: Vec<&str> = words.iter().map(String::as_str).collect();
    if let Some(bytes) = printed(&words) {
        return io::stdout().write_all(&bytes).map_or(ExitCode::FAILURE, |()| ExitCode::SUCCESS);
    }
    if words == ["labels"] {
        LABELLED.iter().for_each(|(name, ..)| println!("{name}"));
    } else {
        KINDS.iter().for_each(|(name, _)| println!("{name}"));
    }
    ExitCode::from(2)
}
