//! A whole comparison: what is compared, in which order, and what is printed.

use std::time::{Duration, Instant};

use crate::compare::{Compared, Comparer, Difference};
use crate::ffi::{Functions, Library};
use crate::forms;
use crate::lists::{self, List};
use crate::nesting;
use crate::oracle::{show_octets, show_units};
use crate::positions;
use crate::r5_lists;
use crate::r5_strings;
use crate::random::Random;
use crate::reader::{self, State};
use crate::shrink::shrink;
use crate::stepping::show_position;
use crate::steps::Position;
use crate::stretches;
use crate::strings;
use crate::unit::{Unit, LIMIT};

/// After so many differences the comparison ends.
const ENOUGH: u64 = 20;

/// Of the stretches every so many is compared by all functions: a number that falls
/// on all turns by which they are made.
const SOME: u64 = 5;

const BETWEEN_REPORTS: Duration = Duration::from_secs(5);

/// Up to so many items that come many times are shown once.
const FEW_ITEMS: usize = 12;

/// What to compare.
pub struct Plan {
    pub functions: Functions,
    pub seed: u64,
    /// The whole time of a long comparison; none for the short one.
    pub long: Option<Duration>,
}

/// Compares by the plan, prints, and gives the number of differences.
pub fn compare<L: Library>(library: L, plan: &Plan) -> u64 {
    let mut session = Session::new(library, plan);
    session.short_part();
    if let Some(time) = plan.long {
        session.long_part(time);
    }
    println!("{}", session.summary());
    session.differences
}

/// The comparison of one string by some of the functions.
pub type StringComparison<L> = fn(&Comparer<L>, &[u8]) -> Compared;

/// The comparison of one list with the octets of its segments.
type ListComparison<L> = fn(&Comparer<L>, &[Unit], &[u8]) -> Compared;

/// The comparison of readers made by hand at a position.
type ReaderComparison<L> = fn(&Comparer<L>, &[u8], Position) -> Compared;

struct Session<L: Library> {
    comparer: Comparer<L>,
    random: Random,
    strings: u64,
    /// The strings over which an opened reader was stepped.
    stepped: u64,
    /// The strings that the archive reader was compared on.
    archived: u64,
    /// The readers made by hand, each with a string.
    readers: u64,
    lists: u64,
    /// The strings for both ways of the resource form.
    resources: u64,
    /// The inputs of the X11R5 reader, and the lists of the X11R5 writer.
    r5_inputs: u64,
    r5_lists: u64,
    /// The numbers of sets whose rows were asked for.
    rows: u64,
    /// The forms, sides and octets whose sets were.
    designations: u64,
    differences: u64,
    /// What has been printed, so that it is printed once.
    printed: Vec<String>,
    started: Instant,
    reported: Instant,
}

impl<L: Library> Session<L> {
    fn new(library: L, plan: &Plan) -> Session<L> {
        Session {
            comparer: Comparer {
                library,
                functions: plan.functions,
            },
            random: Random::new(plan.seed),
            strings: 0,
            stepped: 0,
            archived: 0,
            readers: 0,
            lists: 0,
            resources: 0,
            r5_inputs: 0,
            r5_lists: 0,
            rows: 0,
            designations: 0,
            differences: 0,
            printed: Vec::new(),
            started: Instant::now(),
            reported: Instant::now(),
        }
    }

    fn short_part(&mut self) {
        self.all_rows();
        self.all_designations();
        self.all_short_strings();
        self.random_strings(200_000);
        self.all_stretches();
        self.random_stretches(20_000);
        self.all_nested(10);
        self.random_nested(5_000);
        self.all_readers();
        self.random_readers(200_000);
        self.nested_readers(5_000);
        self.random_lists(100_000);
        self.limits();
        self.all_short_resources();
        self.random_resources(30_000);
        self.resource_limits();
        self.all_r5_inputs();
        self.all_r5_lists();
        self.random_r5(50_000);
        self.r5_limits();
    }

    /// The row of every number.
    fn all_rows(&mut self) {
        for set in 0..=255 {
            if !self.goes_on() || !self.comparer.functions.sets {
                return;
            }
            self.rows += 1;
            let compared = self.comparer.set_row(set);
            self.asked(compared);
        }
    }

    /// The set of every form, side and octet, those that are none too.
    fn all_designations(&mut self) {
        for number in 0..1 << 24 {
            if !self.goes_on() || !self.comparer.functions.sets {
                return;
            }
            let [_, form, side, last] = u32::to_be_bytes(number);
            self.designations += 1;
            let compared = self.comparer.set_of(form, side, last);
            self.asked(compared);
        }
    }

    /// All strings of up to two octets, and longer ones of telling octets, alone
    /// and after each prefix.
    fn all_short_strings(&mut self) {
        let every = strings::every_octet();
        let mut prefixes = strings::prefixes();
        prefixes.push(Vec::new());
        for prefix in &prefixes {
            for length in 0..=2 {
                self.all_strings(prefix, &every, length);
            }
            self.all_strings(prefix, &strings::TELLING, 3);
            self.all_strings(prefix, &strings::FEW, 4);
        }
        self.all_strings(&[], &strings::TELLING, 4);
    }

    fn all_strings(&mut self, prefix: &[u8], alphabet: &[u8], length: usize) {
        strings::all_strings(prefix, alphabet, length, |s| {
            self.string(s);
            self.goes_on()
        });
    }

    fn random_strings(&mut self, count: usize) {
        for _ in 0..count {
            if !self.goes_on() {
                return;
            }
            let s = strings::random_string(&mut self.random);
            self.string(&s);
        }
    }

    /// Strings that are hard for the archive reader: all of them for both readers,
    /// and some for every function, which takes longer.
    fn all_stretches(&mut self) {
        stretches::all(&mut |s| {
            self.stretch(s);
            self.goes_on()
        });
    }

    fn random_stretches(&mut self, count: usize) {
        for _ in 0..count {
            if !self.goes_on() {
                return;
            }
            let s = stretches::random_string(&mut self.random);
            self.stretch(&s);
        }
    }

    /// So many strings for each word of marks, as for the stretches.
    fn all_nested(&mut self, times: usize) {
        let words = nesting::words(5).into_iter().chain(nesting::deep_words());
        for word in words {
            for _ in 0..times {
                if !self.goes_on() {
                    return;
                }
                let s = nesting::string(&mut self.random, &word);
                self.stretch(&s);
            }
        }
    }

    fn random_nested(&mut self, count: usize) {
        for _ in 0..count {
            if !self.goes_on() {
                return;
            }
            let s = nesting::random_string(&mut self.random);
            self.stretch(&s);
        }
    }

    fn stretch(&mut self, s: &[u8]) {
        if self.strings.is_multiple_of(SOME) {
            self.string(s);
        } else {
            self.readings(s);
        }
    }

    /// Readers made by hand with every octet in their fields, over short
    /// strings.
    fn all_readers(&mut self) {
        positions::all_positions(|s, position| self.reader(s, position));
    }

    fn random_readers(&mut self, count: usize) {
        for _ in 0..count {
            if !self.goes_on() {
                return;
            }
            let s = strings::random_string(&mut self.random);
            let position = positions::random_position(&mut self.random, &s);
            self.reader(&s, position);
        }
    }

    fn nested_readers(&mut self, count: usize) {
        for _ in 0..count {
            if !self.goes_on() {
                return;
            }
            let s = nesting::random_string(&mut self.random);
            let position = positions::random_position(&mut self.random, &s);
            self.reader(&s, position);
        }
    }

    fn random_lists(&mut self, count: usize) {
        for _ in 0..count {
            if !self.goes_on() {
                return;
            }
            let list = lists::random_list(&mut self.random);
            self.list(list);
        }
    }

    /// Strings and lists at the limits of the paper.
    fn limits(&mut self) {
        for s in strings::limit_strings(&mut self.random) {
            self.string(&s);
            let position = positions::random_position(&mut self.random, &s);
            self.reader(&s, position);
        }
        for list in lists::limit_lists(&mut self.random) {
            self.list(list);
        }
    }

    /// All resource strings of up to two octets, and longer ones of telling
    /// octets.
    fn all_short_resources(&mut self) {
        let every = strings::every_octet();
        for length in 0..=2 {
            self.all_resources(&every, length);
        }
        for length in 3..=5 {
            self.all_resources(&forms::TELLING, length);
        }
    }

    fn all_resources(&mut self, alphabet: &[u8], length: usize) {
        strings::all_strings(&[], alphabet, length, |s| {
            self.resource(s);
            self.goes_on()
        });
    }

    /// So many times a few random resource strings.
    fn random_resources(&mut self, times: usize) {
        for _ in 0..times {
            if !self.goes_on() {
                return;
            }
            for s in forms::random_strings(&mut self.random) {
                self.resource(&s);
            }
        }
    }

    fn resource_limits(&mut self) {
        for s in forms::limit_strings(&mut self.random) {
            self.resource(&s);
        }
    }

    /// Strings with a 00 at each place, and the elements that the X11R5 form has not.
    fn all_r5_inputs(&mut self) {
        let mut take = |s: &[u8]| {
            r5_strings::at_each_place(s, |input| self.r5_input(input));
            self.goes_on()
        };
        for length in 0..=2 {
            strings::all_strings(&[], &strings::every_octet(), length, &mut take);
        }
        strings::all_strings(&[], &strings::TELLING, 3, &mut take);
        strings::all_strings(&[], &strings::FEW, 4, &mut take);
        for prefix in strings::prefixes() {
            strings::all_strings(&prefix, &strings::FEW, 2, &mut take);
        }
        r5_strings::refused_elements(|input| self.r5_input(input));
    }

    fn all_r5_lists(&mut self) {
        r5_lists::short_lists(|units| self.r5_list(units, &[]));
        r5_lists::refused_lists(|units, segments| self.r5_list(units, segments));
    }

    /// So many random inputs and lists.
    fn random_r5(&mut self, count: usize) {
        for _ in 0..count {
            if !self.goes_on() {
                return;
            }
            let input = r5_strings::random_input(&mut self.random);
            self.r5_input(&input);
            let list = r5_lists::random_list(&mut self.random);
            self.r5_list(&list.units, &list.segments);
        }
    }

    fn r5_limits(&mut self) {
        for input in r5_strings::limit_inputs(&mut self.random) {
            self.r5_input(&input);
        }
        for list in r5_lists::limit_lists(&mut self.random) {
            self.r5_list(&list.units, &list.segments);
        }
    }

    /// All strings of three octets, then random strings, stretches, strings under
    /// directions, readers, lists, resource strings and both of the X11R5 form until
    /// the time is over.
    fn long_part(&mut self, time: Duration) {
        self.all_strings(&[], &strings::every_octet(), 3);
        while self.goes_on() && self.started.elapsed() < time {
            self.random_strings(20_000);
            self.random_stretches(20_000);
            self.random_nested(5_000);
            self.random_readers(20_000);
            self.nested_readers(2_000);
            self.random_lists(20_000);
            self.random_resources(5_000);
            self.random_r5(20_000);
            self.one_at_the_limit();
        }
    }

    fn one_at_the_limit(&mut self) {
        let length = self.random.between(LIMIT - 1, LIMIT + 1);
        let s = strings::random_limit_string(&mut self.random, LIMIT);
        self.string(&s);
        let list = lists::list_with_writing(&mut self.random, length);
        self.list(list);
        let s = forms::random_limit_string(&mut self.random);
        self.resource(&s);
        let input = r5_strings::random_limit_input(&mut self.random);
        self.r5_input(&input);
        let list = r5_lists::random_limit_list(&mut self.random);
        self.r5_list(&list.units, &list.segments);
    }

    fn goes_on(&self) -> bool {
        self.differences < ENOUGH
    }

    fn string(&mut self, s: &[u8]) {
        if !self.goes_on() {
            return;
        }
        self.strings += 1;
        self.compare_string(s, Comparer::string);
        self.archive(s);
        self.r5_inputs_of(s);
        if self.comparer.functions.next {
            self.stepped += 1;
            self.compare_string(s, Comparer::opened);
        }
        if self.comparer.functions.runs {
            self.compare_string(s, Comparer::opened_runs);
        }
        if self.comparer.functions.listed {
            self.compare_string(s, Comparer::listed_runs);
        }
        self.report();
    }

    /// The check and the list reader of both readers alone.
    fn readings(&mut self, s: &[u8]) {
        if !self.goes_on() {
            return;
        }
        self.strings += 1;
        self.compare_string(s, Comparer::readings);
        self.archive(s);
        self.r5_inputs_of(s);
        self.report();
    }

    fn archive(&mut self, s: &[u8]) {
        if self.comparer.functions.archive {
            self.archived += 1;
            self.compare_string(s, Comparer::archive);
        }
    }

    /// The X11R5 reader on a string with 00 put in.
    fn r5_inputs_of(&mut self, s: &[u8]) {
        if self.comparer.functions.r5 {
            let turn = self.strings as usize;
            r5_strings::with_00(s, turn, |input| self.r5_input(input));
            self.compare_string(s, Comparer::r5_rewriting);
        }
    }

    fn r5_input(&mut self, input: &[u8]) {
        if !self.goes_on() || !self.comparer.functions.r5 {
            return;
        }
        self.r5_inputs += 1;
        self.compare_string(input, Comparer::r5_reading);
        self.report();
    }

    fn compare_string(&mut self, s: &[u8], compare: StringComparison<L>) {
        if let Err(first) = compare(&self.comparer, s) {
            let (smallest, difference) = self.smallest_string(s, compare, first);
            self.differ(&show_string(&smallest), &difference);
        }
    }

    fn reader(&mut self, s: &[u8], position: Position) {
        let functions = self.comparer.functions;
        if !self.goes_on() || !(functions.next || functions.runs || functions.listed) {
            return;
        }
        self.readers += 1;
        if functions.next {
            self.compare_reader(s, position, Comparer::reader);
        }
        if functions.runs {
            self.compare_reader(s, position, Comparer::run_readers);
        }
        if functions.listed {
            self.compare_reader(s, position, Comparer::listing_readers);
        }
        self.report();
    }

    fn compare_reader(&mut self, s: &[u8], position: Position, compare: ReaderComparison<L>) {
        if let Err(first) = compare(&self.comparer, s, position) {
            let (s, position, difference) = self.smallest_reader(s, position, compare, first);
            let input = format!(
                "{}\n  reader: {}",
                show_string(&s),
                show_position(&position)
            );
            self.differ(&input, &difference);
        }
    }

    /// Both writers take lists.
    fn list(&mut self, list: List) {
        let List { units, segments } = list;
        self.r5_list(&units, &segments);
        if !self.goes_on() || !self.comparer.functions.write {
            return;
        }
        self.lists += 1;
        self.compare_list(&units, &segments, Comparer::list);
        self.report();
    }

    fn r5_list(&mut self, units: &[Unit], segments: &[u8]) {
        if !self.goes_on() || !self.comparer.functions.r5 {
            return;
        }
        self.r5_lists += 1;
        self.compare_list(units, segments, Comparer::r5_list);
        self.report();
    }

    fn compare_list(&mut self, units: &[Unit], segments: &[u8], compare: ListComparison<L>) {
        if let Err(first) = compare(&self.comparer, units, segments) {
            let (smallest, difference) = self.smallest_list(units, segments, compare, first);
            let input = format!(
                "list: {}\n  segments' octets: {}",
                show_briefly(&smallest.units, show_units),
                show_briefly(&smallest.segments, show_octets)
            );
            self.differ(&input, &difference);
        }
    }

    fn resource(&mut self, s: &[u8]) {
        if !self.goes_on() || !self.comparer.functions.resource {
            return;
        }
        self.resources += 1;
        self.compare_string(s, Comparer::resource);
        self.report();
    }

    /// What the call says is the whole input, and there is nothing to shrink.
    fn asked(&mut self, compared: Compared) {
        if let Err(difference) = compared {
            self.differ("the table of sets", &difference);
        }
        self.report();
    }

    /// The difference found first is shown only if it does not come again.
    fn smallest_string(
        &self,
        s: &[u8],
        compare: StringComparison<L>,
        first: Difference,
    ) -> (Vec<u8>, Difference) {
        let smallest = shrink_string(s, |s| compare(&self.comparer, s).is_err());
        let difference = compare(&self.comparer, &smallest).err().unwrap_or(first);
        (smallest, difference)
    }

    /// The string with the position as it is, then the position.
    fn smallest_reader(
        &self,
        s: &[u8],
        position: Position,
        compare: ReaderComparison<L>,
        first: Difference,
    ) -> (Vec<u8>, Position, Difference) {
        let differs = |s: &[u8], position| compare(&self.comparer, s, position).is_err();
        let s = shrink_string(s, |s| differs(s, position));
        let position = positions::simplest(position, |position| differs(&s, position));
        let s = shrink_string(&s, |s| differs(s, position));
        let difference = compare(&self.comparer, &s, position).err();
        (s, position, difference.unwrap_or(first))
    }

    fn smallest_list(
        &self,
        units: &[Unit],
        segments: &[u8],
        compare: ListComparison<L>,
        first: Difference,
    ) -> (List, Difference) {
        let differs =
            |units: &[Unit], segments: &[u8]| compare(&self.comparer, units, segments).is_err();
        let units = shrink(units.to_vec(), |units| differs(units, segments));
        let segments = shrink(segments.to_vec(), |segments| differs(&units, segments));
        let units = shrink(units, |units| differs(units, &segments));
        let difference = compare(&self.comparer, &units, &segments).err();
        (List { units, segments }, difference.unwrap_or(first))
    }

    fn differ(&mut self, input: &str, difference: &Difference) {
        self.differences += 1;
        let text = format!(
            "difference in {}\n  {input}\n  second: {}\n  ctext:  {}",
            difference.call, difference.second, difference.library
        );
        if !self.printed.contains(&text) {
            println!("{text}");
            self.printed.push(text);
        }
    }

    /// Progress on standard error, every few seconds.
    fn report(&mut self) {
        // The clock is asked rarely, since it takes as long as a short string.
        let strings = self.strings + self.readers + self.lists + self.resources;
        let r5 = self.r5_inputs + self.r5_lists;
        let compared = strings + r5 + self.rows + self.designations;
        let asked = compared.is_multiple_of(64);
        if asked && self.reported.elapsed() >= BETWEEN_REPORTS {
            self.reported = Instant::now();
            let seconds = self.started.elapsed().as_secs();
            eprintln!("{seconds} s, {}", self.summary());
        }
    }

    fn summary(&self) -> String {
        format!(
            "second: {} strings ({} stepped, {} by the archive reader), {} readers made by hand, \
             {} lists, {} resource strings, {} X11R5 strings, {} X11R5 lists, \
             {} rows of sets, {} designations compared, {} differences",
            self.strings,
            self.stepped,
            self.archived,
            self.readers,
            self.lists,
            self.resources,
            self.r5_inputs,
            self.r5_lists,
            self.rows,
            self.designations,
            self.differences
        )
    }
}

/// Drops whole elements first, then octets.
fn shrink_string(s: &[u8], differs: impl Fn(&[u8]) -> bool) -> Vec<u8> {
    let elements = shrink(elements(s), |elements| differs(&elements.concat()));
    shrink(elements.concat(), differs)
}

fn show_string(s: &[u8]) -> String {
    format!("string: {}", show_briefly(s, show_octets))
}

/// The elements of a string up to the offending one, and then single octets.
fn elements(s: &[u8]) -> Vec<Vec<u8>> {
    let mut elements = Vec::new();
    let mut end = 0;
    reader::read_on(s, State::fresh(), |element, _| {
        elements.push(s[element.start..element.end].to_vec());
        end = element.end;
    });
    elements.extend(s[end..].iter().map(|&octet| vec![octet]));
    elements
}

/// The items one by one, with a number for one, or a few, that come many times.
fn show_briefly<T: PartialEq>(mut items: &[T], show: impl Fn(&[T]) -> String) -> String {
    let mut shown = Vec::new();
    while !items.is_empty() {
        let mut lengths = (1..=FEW_ITEMS).map(|length| (length, times(items, length)));
        let often = lengths.find(|(_, times)| *times > 20);
        let (length, times) = often.unwrap_or((1, 1));
        let first = show(&items[..length]);
        shown.push(match (length, times) {
            (_, 1) => first,
            (1, _) => format!("{first} ({times} times)"),
            _ => format!("({first}) ({times} times)"),
        });
        items = &items[length * times..];
    }
    shown.join(" ")
}

/// How many times the first items, so many, come one after another.
fn times<T: PartialEq>(items: &[T], length: usize) -> usize {
    let later = items.iter().skip(length);
    let equal = items.iter().zip(later).take_while(|(a, b)| a == b);
    1 + equal.count() / length
}

/// The comparison itself is tested on libraries with a known fault.
#[cfg(test)]
mod tests {
    use super::*;
    use crate::faults::{Call, Fault, Faulty};
    use crate::unit::*;
    use crate::wrong_archive::WrongArchive;
    use crate::wrong_directions::{WrongDirection, WrongWriter, RECORDS};
    use crate::wrong_places::WrongPlace;
    use crate::wrong_r5_reader::WrongR5Reader;
    use crate::wrong_r5_writer::WrongR5Writer;
    use crate::wrong_rules::WrongRule;

    fn session(fault: Fault) -> Session<Faulty> {
        let all = Functions {
            check: true,
            read: true,
            run: true,
            next: true,
            runs: true,
            listed: true,
            write: true,
            resource: true,
            sets: true,
            archive: true,
            r5: true,
        };
        let plan = Plan {
            functions: all,
            seed: 3,
            long: None,
        };
        Session::new(Faulty::new(fault), &plan)
    }

    /// The smallest string that shows the fault, out of this one.
    fn smallest(fault: Fault, s: &[u8]) -> (Vec<u8>, String) {
        smallest_by(Comparer::string, fault, s)
    }

    fn smallest_by(compare: StringComparison<Faulty>, fault: Fault, s: &[u8]) -> (Vec<u8>, String) {
        let session = session(fault);
        let first = compare(&session.comparer, s).expect_err("a difference");
        let (smallest, difference) = session.smallest_string(s, compare, first);
        (smallest, difference.call)
    }

    /// The smallest reader made by hand that shows the fault, and its string.
    fn smallest_reader(fault: Fault, s: &[u8], position: Position) -> (Vec<u8>, Position) {
        let session = session(fault);
        assert_eq!(session.comparer.opened(s), Ok(()));
        let first = session.comparer.reader(s, position);
        let first = first.expect_err("a difference");
        let (s, position, _) = session.smallest_reader(s, position, Comparer::reader, first);
        (s, position)
    }

    #[test]
    fn no_fault_is_no_difference() {
        let mut session = session(Fault::None);
        session.all_strings(&[0x1B], &strings::FEW, 3);
        session.random_strings(2_000);
        session.random_stretches(500);
        session.random_nested(100);
        assert_eq!(session.archived, session.strings);
        session.random_readers(1_900);
        session.nested_readers(100);
        session.random_lists(2_000);
        assert_eq!(session.r5_inputs, 2 * session.strings);
        assert_eq!(session.r5_lists, session.lists);
        session.random_r5(500);
        session.all_resources(&forms::TELLING, 3);
        assert_eq!(session.resources, 7 * 7 * 7);
        session.random_resources(200);
        session.resource_limits();
        session.all_rows();
        session.all_designations();
        assert_eq!(session.differences, 0);
        assert_eq!((session.rows, session.designations), (256, 1 << 24));
        assert_eq!(session.strings, 12 * 12 * 12 + 2_000 + 500 + 100);
        // Of the stretches, and of what is nested, a fifth.
        assert_eq!(session.stepped, session.strings - 480);
        assert_eq!(session.readers, 2_000);
        assert_eq!(session.lists, 2_000);
    }

    #[test]
    fn faults_are_found_and_shrunk() {
        let s = [0x41, 0x1B, 0x2D, 0x42, 0xB0, 0x20, 0x09, 0x42];
        let marked = [0x41, 0x42, 0x09, 0x9B, 0x31, 0x5D, 0x41];
        let refused = [0x1B, 0x2D, 0x42, 0x41, 0x09, 0x00];
        let found = smallest(Fault::CountOfRefusal, &marked);
        assert_eq!(found.0, [0x9B, 0x5D]);
        assert_eq!(found.1, "ctext_check");
        let found = smallest(Fault::ListOfRefusal, &refused);
        assert_eq!(found.0, [0x09, 0x00]);
        assert_eq!(found.1, "ctext_read into a list of 1, the records after it");
        let found = smallest(Fault::RecordTooMany, &s);
        assert_eq!(found.0, []);
        assert_eq!(found.1, "ctext_read into a list of 0, the records after it");
        let found = smallest(Fault::PlaceOfRun, &s);
        assert_eq!(found.0, [0xB0]);
        assert_eq!(found.1, "ctext_run number 0");
        let found = smallest(Fault::LastSpace, &s[..6]);
        assert_eq!(found.0, [0x20]);
        let found = smallest(Fault::OctetTooMany, &s);
        assert_eq!(found.0, []);
        let found = smallest(Fault::WorkTooMuch, &s);
        assert_eq!(found.0, []);
    }

    #[test]
    fn faults_of_steps_are_found_and_shrunk() {
        let s = [0x41, 0x1B, 0x2D, 0x42, 0xB0, 0x20, 0x1B, 0x28, 0x42];
        let refused = [0x41, 0x41, 0x20, 0x1B, 0x28];
        let found = |fault, s: &[u8]| smallest_by(Comparer::opened, fault, s);
        assert_eq!(found(Fault::Opened, &s), (vec![], "ctext_open".to_string()));
        let (smallest, call) = found(Fault::NoUnitBeforeRefusal, &refused);
        assert_eq!(smallest, [0x20, 0x1B]);
        assert_eq!(call, "ctext_next number 0");
        let (smallest, call) = found(Fault::EndStaysBehind, &s);
        assert_eq!(smallest, [0x1B, 0x2D, 0x42]);
        assert_eq!(call, "ctext_next number 0");
        let designated = [0x41, 0x1B, 0x28, 0x4A, 0x09, 0x1B, 0x2D, 0x42, 0x00];
        let (smallest, call) = found(Fault::RefusalStaysBehind, &designated);
        assert_eq!(smallest, [0x1B, 0x2D, 0x42, 0x00]);
        assert_eq!(call, "ctext_next number 0");
        let (smallest, call) = found(Fault::StandsAtOctet, &refused);
        assert_eq!(smallest, [0x1B]);
        assert_eq!(call, "ctext_next number 0");
        let (smallest, call) = found(Fault::EndIsOnce, &s);
        assert_eq!(smallest, []);
        assert_eq!(call, "ctext_next number 1");
        let (smallest, call) = found(Fault::KeepsCount, &s);
        assert_eq!(smallest, [0x41]);
        assert_eq!(call, "ctext_next number 0, at first and called again");
        let (smallest, call) = found(Fault::LooksBehind, &refused);
        assert_eq!(smallest, [0x1B]);
        assert_eq!(call, "ctext_next number 0");
        let (smallest, call) = found(Fault::WritesBehind, &s);
        assert_eq!(smallest, []);
        assert_eq!(call, "the string among its guards after all calls");
    }

    #[test]
    fn faults_of_runs_in_order_are_found_and_shrunk() {
        let s = [0x41, 0x1B, 0x2D, 0x42, 0xB0, 0x20, 0x09, 0x42];
        let refused = [0x41, 0x41, 0x20, 0x1B, 0x28];
        let found = |fault, s: &[u8]| smallest_by(Comparer::opened_runs, fault, s);
        let (smallest, call) = found(Fault::RunBeforeRefusal, &refused);
        assert_eq!(smallest, [0x20, 0x1B]);
        assert_eq!(call, "ctext_next_run number 0");
        let (smallest, call) = found(Fault::RunsJoined, &s);
        assert_eq!(smallest, [0xB0, 0x20]);
        assert_eq!(call, "ctext_next_run number 0");
    }

    #[test]
    fn faults_of_listed_runs_are_found_and_shrunk() {
        let s = [0x41, 0x1B, 0x2D, 0x42, 0xB0, 0x20, 0x09, 0x42];
        let refused = [0x41, 0x41, 0x20, 0x1B, 0x28];
        let found = |fault, s: &[u8]| smallest_by(Comparer::listed_runs, fault, s);
        let (smallest, call) = found(Fault::WordTooMany, &s);
        assert_eq!(smallest, []);
        assert_eq!(call, "ctext_next_runs number 0 with room 0");
        let (smallest, call) = found(Fault::WordsOfRefusal, &refused);
        assert_eq!(smallest, [0x20, 0x1B]);
        assert_eq!(call, "ctext_next_runs number 0 with room 1");
        let (smallest, call) = found(Fault::RunPassedOver, &s);
        assert_eq!(smallest, [0x41, 0xB0]);
        assert_eq!(call, "ctext_next_runs number 0 with room 1");
        let session = session(Fault::RefusalTooEarly);
        assert_eq!(session.comparer.listed_runs(&refused), Ok(()));
        let opened = Position::OPENED;
        let compare = Comparer::listing_readers;
        let first = compare(&session.comparer, &refused, opened).expect_err("a difference");
        let (smallest, _, difference) = session.smallest_reader(&refused, opened, compare, first);
        assert_eq!(smallest, [0x20, 0x1B]);
        assert_eq!(difference.call, "ctext_next_runs number 0 with room 1");
    }

    #[test]
    fn faults_of_resource_forms_are_found_and_shrunk() {
        let s = b"A\\n\\\\0\\000\\0001\\\\\\00";
        let found = |fault, s: &[u8]| smallest_by(Comparer::resource, fault, s);
        let (smallest, call) = found(Fault::BehindBackslash, s);
        assert_eq!(smallest, b"\\");
        assert_eq!(call, "ctext_resource_read into 0 octets");
        let (smallest, call) = found(Fault::CutEscape, s);
        assert_eq!(smallest, b"\\");
        assert_eq!(call, "ctext_resource_read into 0 octets");
        let (smallest, call) = found(Fault::StoredTooEarly, s);
        assert_eq!(smallest, b"00");
        assert_eq!(
            call,
            "ctext_resource_write into 1 octets, the output after it from 0 on"
        );
        let (smallest, call) = found(Fault::OctetTooMany, s);
        assert_eq!(smallest, []);
        assert_eq!(
            call,
            "ctext_resource_write into 0 octets, the output after it from 0 on"
        );
        let (smallest, call) = found(Fault::WritesInput, s);
        assert_eq!(smallest.len(), 2);
        assert_eq!(call, "the string among its guards after all calls");
    }

    #[test]
    fn faults_of_the_archive_reader_are_found_and_shrunk() {
        let found = |wrong, s: &[u8]| {
            assert_eq!(smallest_is_right(wrong, s), Ok(()));
            smallest_by(Comparer::archive, Fault::Archive(wrong), s)
        };
        let s = [0x41, 0x1B, 0x29, 0x49, 0xB0, 0x20, 0x09, 0xA0, 0x42];
        let (smallest, call) = found(WrongArchive::Entry((1, 0, 0xA0)), &s);
        assert_eq!(smallest, [0x1B, 0x29, 0x49, 0xA0]);
        assert_eq!(call, "ctext_archive_check");
        let (smallest, call) = found(WrongArchive::LooksBehind, &[0x41, 0x1B, 0x28]);
        assert_eq!(smallest, [0x1B]);
        assert_eq!(call, "ctext_archive_check");
        let (smallest, call) = found(WrongArchive::StaleSet, &[0x41, 0xE9, 0x09, 0xE9]);
        assert_eq!(smallest, [0x41, 0xE9]);
        assert_eq!(
            call,
            "ctext_archive_read into a list of 2, the records after it"
        );
        let (smallest, call) = found(WrongArchive::ListOfRefusal, &s);
        assert_eq!(smallest, [0x41, 0x1B]);
        assert_eq!(
            call,
            "ctext_archive_read into a list of 1, the records after it"
        );
        let (smallest, call) = found(WrongArchive::RecordTooMany, &s[..7]);
        assert_eq!(smallest, []);
        assert_eq!(
            call,
            "ctext_archive_read into a list of 0, the records after it"
        );
        let (smallest, call) = found(WrongArchive::StoredTooEarly, &s[..7]);
        assert_eq!(smallest.len(), 2);
        assert_eq!(
            call,
            "ctext_archive_read into a list of 1, the records after it"
        );
    }

    /// The first reader is held to the archive reader too.
    #[test]
    fn the_two_readers_are_compared_with_each_other() {
        let found =
            |call| smallest_by(Comparer::archive, Fault::PlaceOf(call), &[0x09, 0x1B, 0x28]);
        let (smallest, call) = found(Call::Check);
        assert_eq!(smallest, [0x1B]);
        assert_eq!(call, "ctext_check, and ctext_archive_check");
        let (smallest, call) = found(Call::Read);
        assert_eq!(smallest, [0x1B]);
        assert_eq!(call, "ctext_read, and ctext_archive_read into a list of 0");
    }

    /// The smallest list that shows the fault, out of this one.
    fn smallest_units(
        compare: ListComparison<Faulty>,
        fault: Fault,
        units: &[Unit],
    ) -> (Vec<Unit>, String) {
        let session = session(fault);
        let first = compare(&session.comparer, units, &[]).expect_err("a difference");
        let (smallest, difference) = session.smallest_list(units, &[], compare, first);
        (smallest.units, difference.call)
    }

    #[test]
    fn faults_of_the_x11r5_reader_are_found_and_shrunk() {
        let found =
            |wrong, input: &[u8]| smallest_by(Comparer::r5_reading, Fault::R5Reads(wrong), input);
        let (smallest, call) = found(WrongR5Reader::CutAtInput, b"A\x1B$(\0B");
        assert_eq!(smallest, b"\x1B\0");
        assert_eq!(call, "ctext_r5_read into a list of 1");
        let (smallest, call) = found(WrongR5Reader::Last00, b"A\x09\0B\0");
        assert_eq!(smallest, b"\0\0");
        assert_eq!(call, "ctext_r5_read into a list of 0");
        let (smallest, _) = found(WrongR5Reader::RuleFirst, b"A\x09\x9B1]\0");
        assert_eq!(smallest, b"\x9B]\0");
        let (smallest, _) = found(WrongR5Reader::AfterM, b"A\x1B%/1\x7F\x80\0");
        assert_eq!(smallest, b"\x1B%/1\0");
        let (smallest, call) = found(WrongR5Reader::StoredBefore10, b"A\xE9\x09\0");
        assert_eq!(smallest.len(), 3);
        assert_eq!(call, "ctext_r5_read into a list of 1, the records after it");
    }

    #[test]
    fn faults_of_the_x11r5_writer_are_found_and_shrunk() {
        let unit = |kind| Unit {
            kind,
            ..Unit::default()
        };
        let character = |set, code| Unit {
            set,
            code,
            ..unit(CHARACTER)
        };
        let (a, x, space) = (character(0, 0x41), character(13, 0x3021), unit(SPACE));
        let found = |wrong, units: &[Unit]| {
            smallest_units(Comparer::r5_list, Fault::R5Writes(wrong), units)
        };
        let (smallest, call) = found(WrongR5Writer::Uncounted, &[a, space]);
        assert_eq!(smallest, []);
        assert_eq!(call, "ctext_r5_write into 0 octets");
        let (smallest, call) = found(WrongR5Writer::Unwritten, &[a]);
        assert_eq!(smallest, []);
        assert_eq!(
            call,
            "ctext_r5_write into 1 octets, the output after it from 0 on"
        );
        let (smallest, _) = found(WrongR5Writer::Set2ForSpace, &[a, x, a, x, space, a]);
        assert_eq!(smallest, [x, space]);
        let (smallest, _) = found(WrongR5Writer::BadFirst, &[a, unit(REVERT), x, unit(9)]);
        assert_eq!(smallest, [unit(REVERT), unit(9)]);
        let (smallest, call) = found(WrongR5Writer::LooksAtDepth, &[a, x]);
        assert_eq!(smallest.len(), 1);
        let long = "ctext_r5_write into 102 octets";
        assert!(call.starts_with(long) || call.contains("directions and depths changed"));
    }

    /// The X11R5 form is held to the first reader and the first writer.
    #[test]
    fn both_forms_are_compared_with_each_other() {
        let (smallest, call) = smallest_by(Comparer::r5_reading, Fault::RecordTooMany, b"A\0");
        assert_eq!(smallest, b"\0");
        let read = "ctext_read, and ctext_r5_read into a list of 0";
        assert_eq!(call, format!("{read}, the records after it"));
        let a = Unit {
            code: 0x41,
            ..Unit::default()
        };
        let (smallest, call) = smallest_units(Comparer::r5_list, Fault::NeedsMore, &[a, a]);
        assert_eq!(smallest, [a]);
        assert_eq!(call, "ctext_write into 0 octets, and ctext_r5_write");
        // What the X11R5 writer gets wrong on the units of a string.
        let wrong = Fault::R5Writes(WrongR5Writer::EachChange);
        let (smallest, call) = smallest_by(Comparer::r5_rewriting, wrong, b"A\xE9A");
        assert_eq!(smallest, b"\xE9");
        assert_eq!(call, "ctext_r5_write into 2 octets");
    }

    /// The first reader of a library whose archive reader is wrong.
    fn smallest_is_right(wrong: WrongArchive, s: &[u8]) -> Compared {
        session(Fault::Archive(wrong)).comparer.string(s)
    }

    /// Every wrong archive reader shows in the stretches.
    #[test]
    fn wrong_archive_readers_are_found_in_stretches() {
        for wrong in WrongArchive::ALL {
            let mut comparer = session(Fault::Archive(wrong)).comparer;
            // The first reader is right, and takes its time.
            comparer.functions = Functions {
                archive: true,
                ..Functions::NONE
            };
            let mut differences = 0;
            stretches::all(&mut |s| {
                differences += u64::from(comparer.archive(s).is_err());
                differences < ENOUGH
            });
            assert_eq!(differences, ENOUGH, "{wrong:?}");
        }
    }

    #[test]
    fn wrong_directions_are_shrunk() {
        let s = b"\x09\x9B2]A\x1B$)B\xB0\xA1\x9B1]\xB0\xA2\x9B]\x0A\x9B]\x09";
        let found = |wrong, call| {
            let (_, compare) = RECORDS.into_iter().find(|of| of.0 == call).expect("one");
            smallest_by(compare, Fault::Directions(wrong, call), s)
        };
        let (smallest, call) = found(WrongDirection::DirectionBefore, Call::Read);
        assert_eq!(smallest, b"\x9B2]");
        assert_eq!(call, "ctext_read into a list of 1, the records after it");
        let (smallest, call) = found(WrongDirection::TextAtNone, Call::Read);
        assert_eq!(smallest, b"\x9B2]A");
        assert_eq!(call, "ctext_read into a list of 2, the records after it");
        let (smallest, call) = found(WrongDirection::NoneNotRestored, Call::ArchiveRead);
        assert_eq!(smallest, b"\x9B2]\x9B]");
        let records = "the records after it";
        assert_eq!(
            call,
            format!("ctext_archive_read into a list of 2, {records}")
        );
        let (smallest, _) = found(WrongDirection::RevertKeepsDirection, Call::ArchiveRead);
        assert_eq!(smallest, b"\x9B2]\x9B1]\x9B]");
        let (smallest, call) = found(WrongDirection::ControlAtNone, Call::Next);
        assert_eq!(smallest, b"\x9B2]\x09");
        assert_eq!(call, "ctext_next number 1");
    }

    /// A reader made by hand that goes on from no direction.
    #[test]
    fn a_wrong_direction_of_a_reader_is_shrunk() {
        let by_hand = Position {
            levels: 0b101,
            depth: 3,
            ..Position::OPENED
        };
        let fault = Fault::Directions(WrongDirection::FromNone, Call::Next);
        let (s, position) = smallest_reader(fault, b"\x09\xE9\x0A", by_hand);
        assert_eq!(s, [0x09]);
        assert_eq!((position.levels, position.depth), (0, 1));
    }

    /// A writer may not look at the directions of a list, be they those of a
    /// reading or any others.
    #[test]
    fn writers_that_look_at_directions_are_found() {
        for wrong in WrongWriter::ALL {
            let differences = |compare: fn(&mut Session<Faulty>)| {
                let mut session = session(Fault::LooksAtDirections(wrong));
                compare(&mut session);
                session.differences
            };
            let strings = differences(|session| session.random_strings(5_000));
            let lists = differences(|session| session.random_lists(5_000));
            let found = [strings, lists];
            assert!(found.iter().all(|&times| times > 5), "{wrong:?} {found:?}");
        }
        let (smallest, call) =
            smallest(Fault::LooksAtDirections(WrongWriter::LimitsDepth), b"A\x09");
        assert_eq!(smallest, [0x41]);
        let room = "ctext_write with work room 144 and output 4";
        assert_eq!(call, format!("{room}, directions and depths changed"));
    }

    /// How often each fault in the table of sets shows, and first where.
    #[test]
    fn faults_of_sets_are_found() {
        let found = |fault| {
            let mut session = session(fault);
            session.all_rows();
            session.all_designations();
            let first = session.printed[0].lines().next().map(str::to_string);
            (session.differences, first.expect("a line"))
        };
        let (times, first) = found(Fault::EitherSide);
        // Three sets of 94 and nine of 96 have one side.
        assert_eq!(times, 12);
        assert_eq!(first, "difference in ctext_set_of form 1, side 0, octet 49");
        let (times, first) = found(Fault::SideIsFlag);
        assert_eq!(times, ENOUGH);
        assert_eq!(first, "difference in ctext_set_of form 1, side 2, octet 49");
        let (times, first) = found(Fault::RowOfNone);
        assert_eq!(times, ENOUGH);
        assert_eq!(first, "difference in ctext_set_row of 15");
    }

    /// Each wrong rule shows in the strings after a prefix, and in random
    /// strings, readers and lists.
    #[test]
    fn wrong_rules_for_segments_are_found() {
        let differences = |fault, compare: fn(&mut Session<Faulty>)| {
            let mut session = session(fault);
            compare(&mut session);
            session.differences
        };
        for rule in WrongRule::ALL {
            let (reads, writes) = (Fault::Reads(rule), Fault::Writes(rule));
            let prefixed = differences(reads, |session| {
                let prefixes = strings::prefixes();
                for prefix in prefixes.iter().filter(|prefix| prefix.len() > 6) {
                    session.all_strings(prefix, &strings::FEW, 4);
                }
            });
            let strings = differences(reads, |session| session.random_strings(5_000));
            let readers = differences(reads, |session| session.random_readers(5_000));
            let lists = differences(writes, |session| session.random_lists(5_000));
            let found = [prefixed, strings, readers, lists];
            assert!(found.iter().all(|&times| times > 5), "{rule:?} {found:?}");
        }
    }

    #[test]
    fn wrong_rules_for_segments_are_shrunk() {
        let found = |rule, s: &[u8]| smallest(Fault::Reads(rule), s);
        let check = |s: &[u8]| (s.to_vec(), "ctext_check".to_string());
        let s = b"\x09\x1B%/1\x80\x82a\x02\x0A\x9B1]A";
        let name_then_mark = check(b"\x1B%/1\x80\x82a\x02\x9B1]");
        assert_eq!(found(WrongRule::EverySegment, s), name_then_mark);
        let s = b"\x09\x1B%/1\x80\x83a\x02\x02\x0A\x9B1]A";
        let text_then_mark = check(b"\x1B%/1\x80\x83a\x02\x02\x9B1]");
        assert_eq!(found(WrongRule::NoSegment, s), text_then_mark);
        assert_eq!(found(WrongRule::LastSeparator, s), text_then_mark);
        assert_eq!(found(WrongRule::Forgotten, s), text_then_mark);
        let s = b"\x9B1]A\x9B]\x09\x1B%/1\x80\x83a\x02\x02\x0A";
        let text_after_revert = check(b"\x9B1]\x9B]\x1B%/1\x80\x83a\x02\x02");
        assert_eq!(found(WrongRule::NotRefused, s), text_after_revert);
        let s = b"\x9B1]A\x9B]\x09\x1B%/1\x80\x84abcd\x0A";
        let bad_after_revert = check(b"\x9B1]\x9B]\x1B%/1d");
        assert_eq!(found(WrongRule::BadToo, s), bad_after_revert);
    }

    /// Each wrong place shows in the strings after a prefix, in random strings,
    /// and in readers made by hand.
    #[test]
    fn wrong_places_are_found() {
        for wrong in WrongPlace::ALL {
            let differences = |compare: fn(&mut Session<Faulty>)| {
                let mut session = session(Fault::Places(wrong));
                compare(&mut session);
                session.differences
            };
            let prefixed = differences(|session| {
                for prefix in strings::prefixes() {
                    session.all_strings(&prefix, &strings::TELLING, 2);
                }
            });
            let strings = differences(|session| session.random_strings(5_000));
            let readers = differences(|session| session.random_readers(5_000));
            let found = [prefixed, strings, readers];
            assert!(found.iter().all(|&times| times > 5), "{wrong:?} {found:?}");
        }
    }

    /// Each function's place is compared, not only that of the check.
    #[test]
    fn a_wrong_place_of_one_function_is_found() {
        for call in Call::ALL {
            let differences = |compare: fn(&mut Session<Faulty>)| {
                let mut session = session(Fault::PlaceOf(call));
                compare(&mut session);
                session.differences
            };
            let strings = differences(|session| session.all_strings(&[0x1B], &strings::FEW, 2));
            let readers = differences(|session| session.random_readers(2_000));
            assert!(strings > 5, "{call:?}");
            let of_readers = matches!(call, Call::Next | Call::NextRun | Call::NextRuns);
            assert_eq!(readers > 5, of_readers, "{call:?}");
        }
    }

    #[test]
    fn wrong_places_are_shrunk() {
        let found = |wrong, s: &[u8]| smallest(Fault::Places(wrong), s).0;
        let s = b"A\x09\x1B$B\x09";
        assert_eq!(found(WrongPlace::Start, s), b"\x1BB");
        assert_eq!(found(WrongPlace::CutAtStart, b"A\x1B$("), b"\x1B");
        assert_eq!(found(WrongPlace::VersionAtEscape, b"A\x1B#0"), b"\x1B#");
        let s = b"A\x1B(!\x2FB\x09";
        assert_eq!(found(WrongPlace::Intermediate, s), b"\x1B(!B");
        let s = b"A\x1B%/1\x81\x7Fa\x02";
        assert_eq!(found(WrongPlace::MForL, s), b"\x1B%/1\x81\x7F");
        let s = b"A\x1B%/1\x80\x82\x2Aa\x02";
        let no_02 = b"\x1B%/1\x80\x82\x2Aa";
        assert_eq!(found(WrongPlace::NameWithout02, s), no_02);
        assert_eq!(found(WrongPlace::SegmentEnd, s), no_02);
    }

    /// A writer that keeps the rule from before request No. 2.
    #[test]
    fn a_wrong_rule_of_the_writer_is_shrunk() {
        let unit = |kind| Unit {
            kind,
            ..Unit::default()
        };
        let (begin, revert, tab) = (unit(LEFT_TO_RIGHT), unit(REVERT), unit(TAB));
        let segment = Unit {
            code: 0x31,
            length: 3,
            ..unit(SEGMENT)
        };
        let list = List {
            units: vec![tab, begin, tab, revert, segment, tab],
            segments: b"a\x02\x02bc".to_vec(),
        };
        let session = session(Fault::Writes(WrongRule::NoSegment));
        let first = session.comparer.list(&list.units, &list.segments);
        let first = first.expect_err("a difference");
        let (smallest, _) =
            session.smallest_list(&list.units, &list.segments, Comparer::list, first);
        assert_eq!(smallest.units, [begin, revert, segment]);
        assert_eq!(smallest.segments, b"a\x02\x02");
    }

    /// A fault that only a long form shows.
    #[test]
    fn faults_at_the_resource_limits_are_found() {
        let mut session = session(Fault::PlainFirst);
        session.all_short_resources();
        assert_eq!(session.differences, 0);
        let mut long = forms::limit_strings(&mut session.random).into_iter();
        assert!(long.any(|s| session.comparer.resource(&s).is_err()));
    }

    #[test]
    fn readers_are_shrunk() {
        let s = [0x41, 0x1B, 0x2D, 0x42, 0xB0, 0x20, 0x9B, 0x5D];
        let position = Position {
            levels: u64::MAX,
            place: 5,
            count: usize::MAX,
            gl: 2,
            gr: 13,
            depth: 16,
            marked: 255,
            texted: 2,
        };
        let opened = Position::OPENED;
        let found = |fault, position| smallest_reader(fault, &s[..6], position);
        let deep = Position {
            depth: 17,
            ..opened
        };
        let deeper = Position {
            depth: 17,
            ..position
        };
        assert_eq!(found(Fault::DepthLimit, deeper), (vec![], deep));
        let idle = Position {
            levels: u64::MAX,
            ..opened
        };
        assert_eq!(found(Fault::IdleDigits, position), (vec![], idle));
        let full = Position {
            count: usize::MAX,
            ..opened
        };
        assert_eq!(found(Fault::CountWraps, position), (vec![0x41], full));
        let (smallest, reader) = found(Fault::FlagIsOne, position);
        assert_eq!(smallest, []);
        assert_eq!((reader.marked, reader.texted), (0, 2));
    }

    #[test]
    fn octets_are_shown_briefly() {
        let octets = [&[0x41, 0x41][..], &[0x20; 30], &[0x42]].concat();
        assert_eq!(show_briefly(&octets, show_octets), "41 41 20 (30 times) 42");
        let octets = [&[0x41][..], &[0x5C, 0x6E].repeat(30), &[0x5C]].concat();
        let shown = show_briefly(&octets, show_octets);
        assert_eq!(shown, "41 (5C 6E) (30 times) 5C");
    }

    #[test]
    fn lists_are_shrunk() {
        let character = Unit {
            set: 13,
            code: 0x3021,
            ..Unit::default()
        };
        let space = Unit {
            kind: SPACE,
            ..Unit::default()
        };
        let list = List {
            units: vec![character, space, character, space],
            segments: vec![1, 2, 3],
        };
        let session = session(Fault::LastSpace);
        let first = session.comparer.list(&list.units, &list.segments);
        let first = first.expect_err("a difference");
        let (smallest, _) =
            session.smallest_list(&list.units, &list.segments, Comparer::list, first);
        assert_eq!(smallest.units, [space]);
        assert_eq!(smallest.segments, []);
    }

    #[test]
    fn a_comparison_ends_after_enough_differences() {
        let mut session = session(Fault::OctetTooMany);
        session.short_part();
        assert!(session.differences >= ENOUGH);
        assert!(session.strings < 100);
        assert_eq!(session.printed.len(), 1);
    }
}
