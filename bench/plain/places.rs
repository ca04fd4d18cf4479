//! Which references and roots of a graph have which labels, and which are cut.

use crate::graph::Graph;
use crate::labels::{Entry, Place};
use crate::sets::{EMPTY, Set, Sets};

/// In place of a label, and of a set of labels: the place is not followed.
const CUT: u32 = u32::MAX;

/// The number of a class, an object or 0 for the roots; the number of the identifier; and a label of it, or `CUT`.
type Label = (u32, u32, u32);

/// A place with labels: of the class or object `owner`, the identifier `index`.
#[derive(Clone, Copy)]
struct Mark {
    owner: u32,
    index: u32,
    /// The set of its labels, or `CUT`.
    labels: Set,
}

/// Returns the places that have labels or are cut, by owner and index.
fn marks_of(mut labels: Vec<Label>, sets: &mut Sets) -> Vec<Mark> {
    labels.sort_unstable();
    labels.dedup();
    let places = labels.chunk_by(|one, other| (one.0, one.1) == (other.0, other.1));
    let mut of_place = vec![];
    let marks = places.map(|place| {
        of_place.clear();
        of_place.extend(place.iter().map(|label| label.2));
        let labels = if of_place.last() == Some(&CUT) { CUT } else { sets.of(&of_place) };
        Mark { owner: place[0].0, index: place[0].1, labels }
    });
    marks.collect()
}

/// Returns the marks of `owner`.
fn marks_at(marks: &[Mark], owner: u32) -> &[Mark] {
    let begin = marks.partition_point(|mark| mark.owner < owner);
    let count = marks[begin..].partition_point(|mark| mark.owner == owner);
    &marks[begin..begin + count]
}

fn both(one: Set, other: Set, sets: &mut Sets) -> Set {
    if one == CUT || other == CUT { CUT } else { sets.union(one, other) }
}

/// A graph whose references and roots have labels.
pub struct LabelledGraph<'a, const ID: usize> {
    graph: &'a Graph<'a, ID>,
    /// The objects that are roots, with repeats, each with its labels.
    pub roots: Vec<(u32, Set)>,
    by_class: Vec<Mark>,
    /// For each class, the range of its marks in `by_class`.
    of_class: Vec<(u32, u32)>,
    /// These have the labels of the object's class at the same index, too.
    by_object: Vec<Mark>,
    /// A bit for each object, set if it has marks in `by_object`.
    has_marks: Vec<u64>,
}

/// The labels of places by class, by object, and of roots.
#[derive(Default)]
struct Labels {
    classes: Vec<Label>,
    objects: Vec<Label>,
    roots: Vec<Label>,
}

impl Labels {
    /// Adds a label of a place, if the graph has its class or object.
    fn add<const ID: usize>(&mut self, graph: &Graph<ID>, place: Place, label: u32) {
        match place {
            Place::Class(id, index) => self.classes.extend(graph.class_named(id).map(|class| (class, index, label))),
            Place::Object(id, index) => self.objects.extend(graph.find(id).map(|object| (object, index, label))),
            Place::Root(index) => self.roots.push((0, index, label)),
        }
    }
}

impl<'a, const ID: usize> LabelledGraph<'a, ID> {
    pub fn new(graph: &'a Graph<'a, ID>, entries: &[Entry], sets: &mut Sets) -> Self {
        let mut labels = Labels::default();
        let mut added = vec![];
        for entry in entries {
            match *entry {
                Entry::Label(label, place) => labels.add(graph, place, label),
                Entry::Cut(place) => labels.add(graph, place, CUT),
                Entry::Root(id) => added.extend(graph.find(id).map(|object| (object, EMPTY))),
            }
        }
        let by_class = marks_of(labels.classes, sets);
        let mut by_object = marks_of(labels.objects, sets);
        let mut roots = roots_of(graph, &marks_of(labels.roots, sets));
        roots.extend(added);
        let mut of_class = vec![(0, 0); graph.classes.len()];
        for (at, mark) in (0..).zip(&by_class) {
            let range = &mut of_class[mark.owner as usize];
            *range = (if range.1 == 0 { at } else { range.0 }, at + 1);
        }
        let mut has_marks = vec![0; graph.len() / 64 + 1];
        for mark in &mut by_object {
            has_marks[mark.owner as usize / 64] |= 1 << (mark.owner % 64);
            let Some((begin, end)) = of_class.get(graph.row_of(mark.owner) as usize) else { continue };
            let of_class = &by_class[*begin as usize..*end as usize];
            if let Ok(at) = of_class.binary_search_by_key(&mark.index, |mark| mark.index) {
                mark.labels = both(mark.labels, of_class[at].labels, sets);
            }
        }
        LabelledGraph { graph, roots, by_class, of_class, by_object, has_marks }
    }

    /// Returns the number of objects.
    pub fn len(&self) -> usize {
        self.graph.len()
    }

    /// Passes to `take` each object that `object` refers to by a reference that is followed, and the labels of the
    /// reference.
    #[inline]
    pub fn visit(&self, object: u32, mut take: impl FnMut(u32, Set)) {
        let row = self.graph.row_of(object);
        let (begin, end) = self.of_class.get(row as usize).copied().unwrap_or_default();
        let has_marks = self.has_marks[object as usize / 64] >> (object % 64) & 1 != 0;
        if begin == end && !has_marks {
            return self.graph.visit_numbered(object, row, |_, target| take(target, EMPTY));
        }
        let mut of_class = Marks(&self.by_class[begin as usize..end as usize]);
        let mut own = Marks(if has_marks { marks_at(&self.by_object, object) } else { &[] });
        self.graph.visit_numbered(object, row, |index, target| {
            let labels = of_class.labels(index);
            let labels = own.labels(index).or(labels).unwrap_or(EMPTY);
            if labels != CUT {
                take(target, labels);
            }
        });
    }
}

/// The marks of an owner that are not yet passed.
struct Marks<'a>(&'a [Mark]);

impl Marks<'_> {
    /// Returns the labels at `index`. The indices of calls rise.
    #[inline]
    fn labels(&mut self, index: u32) -> Option<Set> {
        while let [first, rest @ ..] = self.0 {
            if first.index > index {
                break;
            }
            self.0 = rest;
            if first.index == index {
                return Some(first.labels);
            }
        }
        None
    }
}

/// Returns the objects that root sub-records name, each with its labels, without the roots that are cut.
fn roots_of<const ID: usize>(graph: &Graph<ID>, marks: &[Mark]) -> Vec<(u32, Set)> {
    let mut marks = Marks(marks);
    let roots = (0..).zip(&graph.dump.roots).filter_map(|(index, at)| {
        let labels = marks.labels(index).unwrap_or(EMPTY);
        let id = graph.text.id(*at as usize + 1);
        (id != 0 && labels != CUT).then(|| graph.find(id)).flatten().map(|object| (object, labels))
    });
    roots.collect()
}
