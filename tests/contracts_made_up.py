"""What tests/contracts is tried on before it reads the project: without it the script could pass by seeing nothing.

MADE_UP is a project of its own, its files by their paths. In crates/made/src/below/wrong.rt each function must be found wrong, for the reason that the
comment above it begins with and for no other; in the other files each must be found right.
FILES are texts of files that cannot be read whole, each with the reason, and some that can.
SHARED is a project of a library `shared` and a static library `shared_c` over it; EXPORTED are the functions in which they differ.
ORDERS are texts like crates.txt with a `program` and a `part` of test programs, each with the crates that are at fault in it.
"""
import re

MADE_UP = {
    'crates/made/src/lib.rt': """
pub struct Line(pub usize);
pub enum Why {
    TooLong,
    NoWord(Line),
    NoPlace { line: Line, column: usize },
}
pub enum Read {
    Is(u64),
    Blank,
    Refused(Why),
}
pub struct Step<'a> {
    pub read: Read,
    pub text: &'a [u8],
    pub line: Line,
}
pub enum Kind {
    First,
    Second,
    Third,
}
pub struct Lent<'a> {
    pub at: usize,
    pub to: &'a mut [u8],
}
pub struct Within<'a> {
    pub lent: Lent<'a>,
}
pub struct Left {
    pub exit: u8,
}
pub struct Wide {
    pub bytes: [u8; 1 << 3],
    pub len: usize,
}
pub struct Word {
    pub text: &'static [u8],
}
""",
    'crates/made/specs/Maps.antt': """
use Rattle.std.specs.Prelude.{ℕ, List, length, half}
use Rattle.std.specs.Borrow.{Bor}
use Rattle.text.specs.Answer.{Answer, ok, refused, refused as declined}
use Rattle.made.specs.Why.{why_number, why_detail, why_line}
use Rattle.made.specs.declared.Read.TheVariants.{Is, Blank, Refused as ReadRefused}
use Rattle.made.specs.declared.Kind.TheVariants.{First, Second, Third}

-- whole: each case has an answer of its own, in which every value stands
abbrev pub read_told : Read → Answer ℕ
read_told (Is n) = ok n
read_told Blank = refused 4 tt
read_told (ReadRefused why) = refused (why_number why) (why_detail why)

-- whole: every field
abbrev pub step_told : Step → Stepped
step_told r = record {
  answer = read_told r.read;
  reader = record { text = r.text; line = r.line };
}

-- where a reference points; what it holds is to be said beside it
abbrev pub points : Bor (List ℕ) → Reference
points r = record { points = r.ref_ptr; length = length r.now }

-- whole: what two buffers hold
abbrev pub both_hold : Bor (List ℕ) → Bor (List ℕ) → Both
both_hold t u = record { first = t.now; second = record { held = u.now } }

-- the second is lost
abbrev pub first_holds : Bor (List ℕ) → Bor (List ℕ) → Both
first_holds t u = record { first = t.now; second = half u.now }

-- where the second points
abbrev pub second_points : Bor (List ℕ) → Bor (List ℕ) → Both
second_points t u = record { first = t.now; second = u.ref_ptr }

-- the answer of Blank is one of Refused's too
abbrev pub read_merged : Read → Answer ℕ
read_merged (Is n) = ok n
read_merged Blank = refused 1 tt
read_merged (ReadRefused why) = refused (why_number why) (why_detail why)

-- the column is lost, in a definition below
abbrev pub read_line_only : Read → Answer ℕ
read_line_only (Is n) = ok n
read_line_only Blank = refused 4 0
read_line_only (ReadRefused why) = refused (why_number why) (why_line why)

abbrev pub step_forgets : Step → Stepped
step_forgets r = record { answer = read_told r.read; line = r.line }

abbrev pub step_halves : Step → Stepped
step_halves r = record { answer = read_told r.read; text = r.text; line = half r.line }

abbrev pub read_wild : Read → Answer ℕ
read_wild (Is n) = ok n
read_wild other = refused 4 0

abbrev pub kind_wild : Kind → ℕ
kind_wild First = 0
kind_wild _ = 1

abbrev pub kind_merged : Kind → ℕ
kind_merged First = 0
kind_merged Second = 1
kind_merged Third = 0

abbrev pub kind_lacks : Kind → ℕ
kind_lacks First = 0
kind_lacks Second = 1

abbrev pub kind_told : Kind → ℕ
kind_told First = 0
kind_told Second = 1
kind_told Third = 2

abbrev pub kind_numerals : Kind → ℕ
kind_numerals First = 1
kind_numerals Second = 01
kind_numerals Third = 2

abbrev pub kind_alias : Kind → Answer ℕ
kind_alias First = refused 1 0
kind_alias Second = declined 1 0
kind_alias Third = refused 2 0

abbrev pub read_literal : Read → Answer ℕ
read_literal (Is zero) = ok 0
read_literal (Is n) = ok n
read_literal Blank = refused 4 tt
read_literal (ReadRefused why) = refused (why_number why) (why_detail why)

abbrev pub kind_hidden : Kind → ℕ
kind_hidden First
  = 1
kind_hidden First = 0
kind_hidden Second = 1
kind_hidden Third = 2

abbrev pub kind_unlisted : Kind → ℕ
kind_unlisted First = 0
kind_unlisted Second = 1
kind_unlisted Third = 2

unfoldable pub good : ℕ → ℕ
good n = half n
""",
    'crates/made/specs/Std.antt': """
use Rattle.std.specs.Prelude.{ℕ, Option, Some, None, Result, Ok, Err, ⊤}
use Rattle.text.specs.Answer.{Answer, ok, refused}
use Rattle.made.specs.Why.{why_number, why_detail}

-- whole: both cases, and a unit keeps nothing back
abbrev pub done_told : Result ⊤ Why → Answer (Unit {0})
done_told (Ok tt) = ok tt
done_told (Err why) = refused (why_number why) (why_detail why)

abbrev pub counted_told : Result (Option ℕ) Why → Answer ℕ
counted_told (Ok None) = refused 4 tt
counted_told (Ok (Some n)) = ok n
counted_told (Err why) = refused (why_number why) (why_detail why)

-- what was counted is lost
abbrev pub counted_half : Result (Option ℕ) Why → Answer ℕ
counted_half (Ok None) = refused 4 tt
counted_half (Ok (Some n)) = ok (half n)
counted_half (Err why) = refused (why_number why) (why_detail why)

-- nothing counted is an answer of the refusal too
abbrev pub counted_merged : Result (Option ℕ) Why → Answer ℕ
counted_merged (Ok None) = refused 1 tt
counted_merged (Ok (Some n)) = ok n
counted_merged (Err why) = refused (why_number why) (why_detail why)

-- the place is lost
abbrev pub place_told : Option ℕ → Answer ℕ
place_told (Some n) = ok 0
place_told None = refused 4 0

abbrev pub place_lacks : Option ℕ → Answer ℕ
place_lacks (Some n) = ok n
""",
    'crates/made/specs/Half.antt': """
use Rattle.std.specs.Prelude.{ℕ, Option, None, half as Some}
use Rattle.made.specs.declared.Kind.TheVariants.{First, Second, Third}

-- `Some` is another name here
abbrev pub step_some : Step → Halved
step_some r = record { read = r.read; text = r.text; line = Some r.line }
""",
    'crates/made/specs/Other.antt': """
use Rattle.std.specs.Borrow.{Bor}

-- `now` is another name here
now : Bor (List ℕ) → ℕ × ℕ
now t = t.ref_ptr

abbrev pub both_point : Bor (List ℕ) → Bor (List ℕ) → Both
both_point t u = record { first = now t; second = now u }
""",
    'crates/text/specs/Answer.antt': """
pub data Answer (A : Type 0) : Type 0 where
  ok : A → Answer A
  refused : ℕ → ℕ → Answer A
""",
    'crates/made/specs/Why.antt': """
use Rattle.made.specs.declared.Why.TheVariants.{TooLong, NoWord, NoPlace}

why_number : Why → ℕ
why_number TooLong = 1
why_number (NoWord line) = 2
why_number (NoPlace line column) = 3

why_detail : Why → Detail
why_detail TooLong = tt
why_detail (NoWord line) = line
why_detail (NoPlace line column) = record { line = line.0; column = column }

why_line : Why → ℕ
why_line TooLong = 0
why_line (NoWord line) = line.0
why_line (NoPlace line column) = line.0
""",
    'crates/made/src/right.rt': """
use made::Step;
ghost use Rattle.std.specs.Prelude.{◌≡◌, Some};
ghost use Rattle.made.specs.Std.{done_told, counted_told};
ghost use Rattle.made.specs.Maps.{read_told, step_told, kind_told, points, both_hold, good, good as fine};
pub fn plain(x: u8) -> u8
    ensures { result ≡ good x }
{ x }
pub fn lent(t: &mut [u8], u: &mut [bool]) -> Kind
    ensures { (kind_told result ≡ fine t.old) × ((t.new ≡ good 1) × (u.new ≡ good 2)) }
{ x }
pub fn lent_together(t: &mut [u8], u: &mut [u8])
    ensures { both_hold t.exit u.exit ≡ good t.old }
{ x }
pub fn lent_by_exit(t: &mut [u8])
    ensures { t.exit.now ≡ good t.old }
{ x }
pub fn cases(x: u8) -> Read
    ensures { read_told result ≡ good x }
{ x }
pub fn fields<'a>(text: &'a [u8]) -> Step<'a>
    ensures { step_told result ≡ good x }
{ x }
pub fn field_by_field<'a>(text: &'a [u8]) -> Step<'a>
    ensures line_and_read { (result.line ≡ good x) × (read_told result.read ≡ good x) }
    ensures text { result.text ≡ good text }
{ x }
pub fn reference<'a>(text: &'a [u8]) -> &'a [u8]
    ensures { (points result ≡ fine text.entry) × (result.now ≡ good text.now) }
{ text }
pub fn reference_itself<'a>(text: &'a [u8]) -> &'a [u8]
    ensures { result ≡ good text.entry }
{ text }
pub fn done(x: u8) -> Result<(), Why>
    ensures { done_told result ≡ good x }
{ x }
pub fn word(x: u8) -> &'static [u8]
    ensures { result.now ≡ good x }
{ x }
pub fn counted(x: u8, y: Result<u8, Option<u8>>) -> Result<Option<usize>, Why>
    ensures { counted_told result ≡ good x }
{ x }
pub fn somewhere(x: u8) -> Option<usize>
    ensures { result ≡ Some (good x) }
{ x }
pub fn unit(x: u8) -> ()
    ensures { result ≡ good x }
{ }
pub fn wide(x: u8) -> Wide
    ensures { (result.bytes ≡ good x) × (result.len ≡ good x) }
{ x }
pub trait Told {
    ghost told: { ℕ → Kind };
    const K: u8;
    fn tell(x: u8) -> u8
        ensures { result ≡ good (told x) };
    fn put(&self, t: &mut [u8], x: u8) -> [u8; 4]
        ensures { (result ≡ good (told x)) × (t.new ≡ fine t.old) }
    { [Self::tell(x); 4] }
}
""",
    'crates/made/src/below/held.rt': """
pub struct Held<'a> {
    pub to: &'a mut [u8],
}
""",
    'crates/made/src/below/wrong.rt': """
use made::Read;
use made::Step;
ghost use Rattle.std.specs.Prelude.{◌≡◌, ltb, length, OnOk};
ghost use Rattle.made.specs.Maps.{good, read_told, read_merged, read_line_only, read_wild, step_forgets, step_halves, points, both_hold, first_holds, second_points};
ghost use Rattle.made.specs.Maps.{kind_wild, kind_merged, kind_lacks, kind_unlisted, kind_numerals, kind_alias, kind_hidden, read_literal};
ghost use Rattle.made.specs.Other.{both_point};
ghost use Rattle.made.specs.Std.{counted_half, counted_merged, place_told, place_lacks, done_told};
ghost use Rattle.made.specs.Half.{step_some};
use below::held::Held;
use made::below::Wide;
use made::Left;
use made::Within;
trait Wrong: Sized {
    ghost told: { ℕ };
    // nothing is said of the result
    fn said_of_itself(x: u8) -> u8
        ensures { x ≡ good x };
    // no equation
    fn nothing_said(t: &mut [u8])
        ensures { Good 23 t.old t.new };
    // nothing is said of t at the exit
    fn lent_and_unsaid(t: &mut [u8])
        ensures { 0 ≡ good 0 };
    // it has a requires
    fn asks_of_each(x: u8) -> u8
        requires { x ≤ 3 }
        ensures { result ≡ good x };
    // `told` is no name of specs/
    fn as_told(x: u8) -> [u8; 4]
        ensures { result ≡ told };
    // `good` is no name of specs/
    fn of_its_type<good: Told>(x: u8) -> u8
        ensures { result ≡ good.told x };
    // an implication
    fn with_a_body(x: u8) -> u8
        ensures { (x ≡ 3) → (result ≡ good x) }
    { x }
}
// what `w: Held<'a>` lends is not read
pub fn lent_elsewhere<'a>(w: Held<'a>) -> u8
    ensures { result ≡ good 1 }
{ 1 }
// nothing is said of the result
pub fn unit(x: u8) -> () { }
// no equation
pub fn unit_emptily(x: u8) -> ()
    ensures {}
{ }
// the result .len is left unsaid
pub fn wide_by_half(x: u8) -> Wide
    ensures { result.bytes ≡ good x }
{ x }
// the result .line is left unsaid
pub fn some_of_another_name(x: u8) -> Step<'a>
    ensures { step_some result ≡ good x }
{ x }
// what `text: &'static [u8]` lends is not read
pub fn word_of_word(text: &'static [u8]) -> &'static [u8]
    ensures { result.now ≡ good text.now }
{ text }
// what `word: Word` lends is not read
pub fn word_within(word: Word) -> &'static [u8]
    ensures { result.now ≡ good word }
{ word.text }
impl Word {
    // what `&self: Word` lends is not read
    pub fn word_of_itself(&self) -> &'static [u8]
        ensures { result.now ≡ good self.now }
    { self.text }
}
impl<'a> Lent<'a> {
    // what `self: Lent` lends is not read
    pub fn lent_by_itself(self) -> u8
        ensures { result ≡ good 1 }
    { 1 }
    // what `w: Lent` lends is not read
    pub fn lent_by_another(w: Self) -> u8
        ensures { result ≡ good 1 }
    { 1 }
}
// what `t: impl T` lends is not read
pub fn lent_by_any<T: AsMut<[u8]>>(t: T) -> u8
    ensures { result ≡ good 1 }
{ 1 }
// the result .Ok.0 .Some.0 is left unsaid
pub fn counted_by_half(x: u8) -> Result<Option<usize>, Why>
    ensures { counted_half result ≡ good x }
{ x }
// the cases Ok None and Err TooLong are merged
pub fn none_as_refused(x: u8) -> Result<Option<usize>, Why>
    ensures { counted_merged result ≡ good x }
{ x }
// the result .Some.0 is left unsaid
pub fn somewhere_only(x: u8) -> Option<usize>
    ensures { place_told result ≡ good x }
{ x }
// `place_lacks` has no clause for a case
pub fn nowhere_untold(x: u8) -> Option<usize>
    ensures { place_lacks result ≡ good x }
{ x }
// nothing is said of the result
pub fn word_unsaid(x: u8) -> &'static [u8]
    ensures { x ≡ good x }
{ x }
// the reference is left unsaid: the result .ref_ptr
pub fn word_lent<'a>(x: &'a [u8]) -> &'a [u8]
    ensures { result.now ≡ good x }
{ x }
// the result is no Result
pub fn option_as_result(x: u8) -> Option<usize>
    ensures { done_told result ≡ good x }
{ x }
// `Some` is no name of specs/
pub fn some_unknown(x: u8) -> Option<usize>
    ensures { result ≡ Some (good x) }
{ x }
// nothing is said of the result
pub fn unsaid(x: u8) -> u8 { x }
// it has a requires
pub fn asks(x: u8) -> u8
    requires { x < 3 }
    ensures { result ≡ good x }
{ x }
// nothing is said of t at the exit
pub fn before(t: &mut [u8]) -> u8
    ensures { (result ≡ good t.old) × (t.old ≡ good 1) }
{ 1 }
// `ltb` is no name of specs/
pub fn foreign(x: u8) -> u8
    ensures { result ≡ ltb x 3 }
{ x }
// the right side speaks of the outcome
pub fn itself(x: u8) -> u8
    ensures { result ≡ good result }
{ x }
impl Z {
    // nothing is said of u at the exit
    pub fn method<'a>(self, t: &'a mut [u8], u: &mut [bool])
        ensures { t.new ≡ good 1 }
    { }
    // nothing is said of self at the exit
    pub fn changes(&mut self) -> u8
        ensures { result ≡ good 1 }
    { }
}
// nothing is said of the result
#[unsafe(no_mangle)]
pub extern "C" fn exported(x: u64) -> u64 { x }
// an implication
pub fn implied(x: u8) -> u8
    ensures { (x ≡ 3) → (result ≡ good x) }
{ x }
// a disjunction
pub fn either(x: u8) -> u8
    ensures { (result ≡ good x) ⊎ (result ≡ good 1) }
{ x }
// a disjunction
pub fn either_below(x: u8) -> u8
    ensures { (result ≡ good x) × ((result ≡ good x) ∨ (result ≡ good 1)) }
{ x }
// an inequality
pub fn at_most(x: u8) -> u8
    ensures { result ≤ good x }
{ x }
// no equation
pub fn not_so(x: u8) -> u8
    ensures { ¬ (result ≡ good x) }
{ x }
// no equation
pub fn on_ok(x: u8) -> Result<u8, u8>
    ensures { OnOk result (good x ≡ good 1) }
{ x }
// an ensures that is no fact
pub fn two_facts(x: u8) -> u8
    ensures { ⌜ result ≡ good x ⌝ -∗ ⌜ result ≡ good x ⌝ }
{ x }
// an ensures that is no fact
pub fn starred(x: u8) -> u8
    ensures* { result ≡ good x }
{ x }
// a length alone is said
pub fn as_long(t: &mut [u8])
    ensures { length t.new ≡ good 1 }
{ }
// nothing is said of u at the exit
pub fn one_buffer_halved(t: &mut [u8], u: &mut [u8])
    ensures { first_holds t.exit u.exit ≡ good 1 }
{ }
// nothing is said of u at the exit
pub fn one_buffer_pointed_at(t: &mut [u8], u: &mut [u8])
    ensures { second_points t.exit u.exit ≡ good 1 }
{ }
// nothing is said of u at the exit
pub fn one_buffer_twice(t: &mut [u8], u: &mut [u8])
    ensures { both_hold t.exit t.exit ≡ good 1 }
{ }
// nothing is said of t at the exit
pub fn both_pointed_at(t: &mut [u8], u: &mut [u8])
    ensures { both_point t.exit u.exit ≡ good 1 }
{ }
// nothing is said of t at the exit
pub fn result_of_that_name(t: &mut [u8]) -> Left
    ensures whole { result ≡ good 1 }
    ensures part { result.exit ≡ good 1 }
{ }
// a parameter has the name of the result
pub fn named_result(result: &mut [u8])
    ensures { result.new ≡ good 1 }
{ }
// `read_told (result .read)` cannot be read
pub fn loose(x: u8) -> Step<'a>
    ensures { read_told (result .read) ≡ good x }
{ x }
// nothing is said of t at the exit
pub fn lent_pointer(t: &mut [u8])
    ensures { t.exit.ref_ptr ≡ good 1 }
{ }
// nothing is said of t at the exit
pub fn buffers_before(t: &mut [u8], u: &mut [u8])
    ensures { both_hold t.entry u.exit ≡ good 1 }
{ }
// `kind_unlisted` is no listed map
pub fn unlisted(x: u8) -> Kind
    ensures { kind_unlisted result ≡ good x }
{ x }
// `kind_unlisted` is no listed map
pub fn unlisted_in_record(x: u8) -> Kind
    ensures { record { kind = kind_unlisted result } ≡ good x }
{ x }
// the cases First and Second are merged
pub fn map_numerals(x: u8) -> Kind
    ensures { kind_numerals result ≡ good x }
{ x }
// the cases First and Second are merged
pub fn map_alias(x: u8) -> Kind
    ensures { kind_alias result ≡ good x }
{ x }
// the pattern zero is no variable
pub fn map_literal(x: u8) -> Read
    ensures { read_literal result ≡ good x }
{ x }
// a clause of `kind_hidden` is not read
pub fn map_hidden(x: u8) -> Kind
    ensures { kind_hidden result ≡ good x }
{ x }
// what `w: Within<'a>` lends is not read
pub fn lent_within<'a>(w: Within<'a>) -> u8
    ensures { result ≡ good 1 }
{ 1 }
// what `w: (&mut [u8], u8)` lends is not read
pub fn lent_in_tuple(w: (&mut [u8], u8)) { }
// what `w: &&mut [u8]` lends is not read
pub fn lent_behind(w: &&mut [u8]) { }
// what `w: *mut u8` lends is not read
pub fn pointer(w: *mut u8) { }
// the result .text is left unsaid
pub fn map_forgets_field(x: u8) -> Step<'a>
    ensures { step_forgets result ≡ good x }
{ x }
// the result .line is left unsaid
pub fn map_halves_field(x: u8) -> Step<'a>
    ensures { step_halves result ≡ good x }
{ x }
// the result .Refused.0 .NoPlace.1 is left unsaid
pub fn map_forgets_value(x: u8) -> Read
    ensures { read_line_only result ≡ good x }
{ x }
// the result .Refused.0 is left unsaid
pub fn map_wild_value(x: u8) -> Read
    ensures { read_wild result ≡ good x }
{ x }
// the cases Blank and Refused TooLong are merged
pub fn map_merges_below(x: u8) -> Read
    ensures { read_merged result ≡ good x }
{ x }
// the cases Second and Third are merged
pub fn map_wild(x: u8) -> Kind
    ensures { kind_wild result ≡ good x }
{ x }
// the cases First and Third are merged
pub fn map_merges(x: u8) -> Kind
    ensures { kind_merged result ≡ good x }
{ x }
// `kind_lacks` has no clause
pub fn map_lacks_case(x: u8) -> Kind
    ensures { kind_lacks result ≡ good x }
{ x }
// the result .line is left unsaid
pub fn field_unsaid(x: u8) -> Step<'a>
    ensures { (read_told result.read ≡ good x) × (result.text ≡ good x) }
{ x }
// the reference is left unsaid: the result .ref_ptr
pub fn held_only<'a>(text: &'a [u8]) -> &'a [u8]
    ensures { result.now ≡ good text.now }
{ text }
// the reference is left unsaid: the result .text .ref_ptr
pub fn held_only_in_field(x: u8) -> Step<'a>
    ensures { (read_told result.read ≡ good x) × ((result.line ≡ good x) × (result.text.now ≡ good x)) }
{ x }
// the result .now is left unsaid
pub fn points_only<'a>(text: &'a [u8]) -> &'a [u8]
    ensures { points result ≡ good text.entry }
{ text }
""",
}
ROW = 'pub struct Row { bytes: [u8; 82], len: usize } '
FILES = [
    ('fn f() { let s = b"//"; } pub default fn g() {}', 'a public function of a form that is not read'),
    ('pub extern "C-unwind" fn f() {} pub async fn g() {}', None),
    ('pub(crate) fn f() {}', None),
    ('type Bytes<\'a> = &\'a mut [u8];', 'a type has another name'),
    ('trait T { fn f(&self); }', 'a trait'),
    ('impl T for Z { fn f(&self) {} }', 'a trait'),
    ('trait T { fn f(&self) -> u8 ensures { result ≡ good 1 } ; fn g(&self); }', 'a trait'),
    ('trait T { fn f<F: Fn(u8)>(f: F, t: &mut [u8]) ensures { t.new ≡ good 1 }; }', 'a trait'),
    ('ghost use Rattle.std.specs.Prelude.{ℕ};\npub trait T: Sized { ghost told: { ℕ }; fn f(&self) -> u8 ensures { result ≡ good told } { 1 } const K: u8; }', None),
    ('trait T<const N: u8 = { 3 }> { fn f(&self); }', 'a trait'),
    ('unsafe trait T { }', 'a trait'),
    ('ghost use Rattle.std.specs.Prelude.{ℕ, List};\nghost use Rattle.made.specs.declared.Kind.{Kind};\ntrait T { ghost told: { Kind → List (List ℕ) }; }', None),
    ('ghost use Rattle.std.specs.Prelude.{ℕ};\ntrait T { ghost told: { ℕ }; ghost law: { told ≡ 1 }; }', 'a trait'),
    ('trait T { ghost use Rattle.std.specs.Prelude.{half as good}; fn f() -> u8 ensures { result ≡ good 1 }; }', 'a trait'),
    ('ghost use Rattle.made.specs.Laws.{Law};\ntrait T { ghost law: { Law }; }', 'a trait'),
    ('ghost use Rattle.made.specs.Laws.{Law as List};\ntrait T { ghost law: { List }; }', 'a trait'),
    ('ghost use Rattle.std.specs.Prelude.{ℕ};\nghost use Rattle.made.specs.Maps.{good};\ntrait T { ghost good: { ℕ → ℕ }; }', 'a trait'),
    ('use made::Told;\nimpl Told for Z { ghost told = { 1 }; const K: u8 = 1; fn f(&self) -> u8 { 1 } }', None),
    ('use made::Told;\nimpl<T: Told> Told for Z<T> { fn f(&self) -> u8 { 1 } }', None),
    ('use made::Told;\nimpl Told for Z { fn f(&self) -> u8 ensures { result ≡ good 1 } { 1 } }', 'a trait'),
    ('use made::Told;\nimpl Told for Z<{ N }> { fn f(&self) -> u8 requires { 0 ≡ 1 } { 1 } }', 'a trait'),
    ('use made::Told;\nimpl<\'a> Told for Within<\'a> { }', 'a trait'),
    ('use made::Told;\nunsafe impl Told for Z { }', 'a trait'),
    ('use made::Told;\nimpl<T: AsMut<[u8]>> Told for Z<T> { }', 'a trait'),
    ('impl Told for Z { }', 'a trait'),
    ('use other::Told;\nimpl Told for Z { }', 'a trait'),
    ('use std::marker::Told;\nimpl Told for Z { }', 'a trait'),
    ('impl From<A> for B { fn from(a: A) -> B { B } }', 'a trait'),
    ('unsafe impl Send for Z {}', 'a trait'),
    ('impl Mark for Z { ghost view = { 1 }; }', 'a trait'),
    (ROW + 'impl Model for Row { ghost Value = { ℕ }; ghost view = { λ r. take r.len r.bytes }; ghost invariant = { λ r. r.len ≤ 82 }; }', None),
    (ROW.replace('len', 'pub len') + 'impl Model for Row { ghost Value = { ℕ }; ghost view = { λ r. take r.len r.bytes }; }', 'a trait'),
    (ROW + 'impl Model for Row { ghost Value = { ℕ }; ghost view = { λ r. r.bytes }; }', 'a trait'),
    (ROW.replace('Row', 'Row<T>') + 'impl<T> Model for Row<T> { ghost Value = { ℕ }; ghost view = { λ r. take r.len r.bytes }; }', 'a trait'),
    (ROW + 'impl Model for Row { ghost Value = { ℕ }; ghost view = { λ r. take s.len r.bytes }; }', 'a trait'),
    (ROW + 'impl Model for Row { ghost Value = { ℕ }; ghost view = { items }; }', 'a trait'),
    (ROW + 'impl Model for Row { ghost Value = { ℕ }; ghost view = { λ r. take r.len r.bytes }; ghost also_owns = { λ r. r.len }; }', 'a trait'),
    (ROW + 'impl Model for Row { ghost Value = { ℕ }; ghost view = { λ r. (λ r. r.len) r.bytes }; }', 'a trait'),
    ('pub struct Row { } impl Model for Row { ghost Value = { ℕ }; ghost view = { λ r. 0 }; ghost invariant = { λ r. 0 ≡ 1 }; }', 'a trait'),
    (ROW + ROW + 'impl Model for Row { ghost Value = { ℕ }; ghost view = { λ r. take r.len r.bytes }; }', 'a trait'),
    ('pub struct Z { n: u64 } impl Model for Z { ghost Value = { ℕ }; ghost view = { λ z. z.n }; }', 'a trait'),
    ('pub struct Z { pub n: u64 } impl Model for Z { ghost Value = { ℕ }; ghost view = { λ z. z.n }; ghost invariant = { λ z. z.n ≤ 1 }; }', 'a trait'),
    ('pub struct Z { n: u64 } impl Model for Z { ghost Value = { ℕ }; ghost view = { λ z. 0 }; }', 'a trait'),
    ('#[unsafe(no_mangle)]\nextern "C" fn f() {}', 'an export that is not pub'),
    ('#[unsafe(no_mangle)]\npub extern "C" fn f() {}', None),
    ('#[derive(Clone, Copy)]\npub struct S { }', None),
    ('macro_rules! m { () => { pub fn f() {} } }', 'a macro'),
    ('/* */ pub fn f() {}', 'a block comment'),
    ('pub default fn f() {}', 'a public function of a form that is not read'),
    ('pub fn f<F: Fn(u8)>(f: F, t: &mut [u8]) {}', 'a public function of a form that is not read'),
    ('use other::Lent as Left;', 'a type has another name'),
    ('use other::*;', 'a type has another name'),
    ('pub enum Option<A> { Some(A), None, Third }', 'a type has another name'),
    ('pub struct S<\'a, \'b: \'static> { text: &\'b [u8] }', 'a lifetime has another name'),
    ('pub struct S { pub n: u8, ghost small: { n ≤ 1 } }', 'a ghost field'),
    ('impl S { ghost use Rattle.std.specs.Prelude.{half as good}; }', 'an import within a block'),
]

MADE_UP_MAPS = {f'made.{module}.{name}' for module in ('Maps', 'Other', 'Std', 'Half') for name in re.findall(r'abbrev pub (\w+)', MADE_UP[f'crates/made/specs/{module}.antt'])}
MADE_UP_MAPS -= {'made.Maps.kind_unlisted'}
MADE_UP_MODELS = {('made', 'Row')}

SHARED = {
    'crates/shared/src/lib.rt': """
pub fn same(x: u8) -> u8
    ensures { result ≡ good x }
{ x }
pub fn asked(x: u8) -> u8
    ensures { result ≡ good x }
{ x }
pub fn forgotten(x: u8) -> u8
    ensures { result ≡ good x }
{ x }
pub fn weaker(x: u8, t: &mut [u8]) -> u8
    ensures value { result ≡ good x }
    ensures t_after { t.new ≡ good x }
{ x }
pub fn wider(x: u8) -> u8
    ensures { result ≡ good x }
{ x }
fn inner(x: u8) -> u8
{ x }
""",
    'crates/shared_c/src/lib.rt': """
#[unsafe(no_mangle)]
pub extern "C" fn same(x: u8) -> u8
    ensures {
        result ≡ good x
    }
{ shared::same(x) }
#[unsafe(no_mangle)]
pub extern "C" fn asked(x: u8) -> u8
    requires { x < 3 }
    ensures { result ≡ good x }
{ shared::asked(x) }
#[unsafe(no_mangle)]
pub extern "C" fn weaker(x: u8, t: &mut [u8]) -> u8
    ensures { result ≡ good x }
{ shared::weaker(x, t) }
#[unsafe(no_mangle)]
pub extern "C" fn wider(x: u8) -> u16
    ensures { result ≡ good x }
{ shared::wider(x) }
#[unsafe(no_mangle)]
pub extern "C" fn other(x: u8) -> u8
    ensures { result ≡ good x }
{ x }
""",
}
EXPORTED = ['asked', 'forgotten', 'other', 'weaker', 'wider']

ORDERS = [
    ('below:\npart: below\nlibrary staticlib: part below\nprogram: part below\n', ['library']),
    ('below:\npart: below\nprogram: part below\n', []),
    ('part:\nlibrary: part\nprogram: library part\n', ['library']),
    ('part:\nlibrary:\nprogram: library\n', ['part']),
]
