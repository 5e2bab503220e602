"""Lines that are planted for tests/evidence: what it has to refuse, and what it must not.

A case is a line `-- NAME` and the source behind it.
"""


def cases(text):
    """The sources by their names."""
    found = {}
    for case in text.strip("\n").split("-- ")[1:]:
        name, _, source = case.partition("\n")
        found[name] = source
    return found


BAD = cases(r"""
-- made outright
fn f() -> Result<(), NoMemory> { Err(NoMemory) }
-- made with its field
fn f() -> NoMemory { wall_labels::NoMemory(()) }
-- over three lines
fn f() -> Result<(), E> {
    Err(
        E
        ::
        NoMemory
    )
}
-- behind a comment
fn f() -> E { /* E::Zero */ E /* :: */ :: // no
 NoMemory }
-- by an if
fn f(n: u32) -> Result<u32, E> { if n == 256 { return Err(E::NoMemory); } Ok(n) }
-- in a guard's arm
fn f(n: u32) -> E { match n { m if m > 3 => E::NoMemory, _ => E::Zero } }
-- in the scrutinee
fn f() -> u8 { match E::NoMemory { E::NoMemory => 1, _ => 2 } }
-- by another fault
fn f(e: D) -> E { match e { D::NoMemory | D::Zero => E::NoMemory, _ => E::Zero } }
-- in the other arm
fn f(e: D) -> E { match e { D::NoMemory => E::Zero, _ => E::NoMemory } }
-- in an else
fn f(e: D) -> E { if let D::NoMemory = e { E::Zero } else { E::NoMemory } }
-- in a let else
fn f(r: R) -> Result<u8, E> { let Ok(n) = r else { return Err(E::NoMemory); }; Ok(n) }
-- in a closure
fn f(r: R) -> Result<u8, E> { r.map_err(|_| E::NoMemory) }
-- in a closure of two
fn f(r: R) -> E { match r { A => g(|a, b| E::NoMemory), B => E::Zero } }
-- behind types
fn f(r: R) -> E { match r { A => g::<X, Y>(E::NoMemory), B => E::Zero } }
-- as a function
fn f(r: R) -> Result<u8, E> { r.or(Err(E::NoMemory)) }
-- as a constant
const RAN_OUT: E = E::NoMemory;
-- as a default
#[derive(Default)] enum E { Zero, #[default] NoMemory }
-- by its default
impl Default for E { fn default() -> E { E::NoMemory } }
-- from another type
impl From<D> for E { fn from(d: D) -> E { E::NoMemory } }
-- of another type
impl From<NoMemory> for D { fn from(n: NoMemory) -> D { g(E::NoMemory) } }
-- beside from
impl From<NoMemory> for E { fn made() -> E { E::NoMemory } }
-- from what carries none
struct L(()); impl From<L> for E { fn from(m: L) -> E { E::NoMemory } }
-- from what may carry none
struct L(Option<NoMemory>); impl From<L> for E { fn from(m: L) -> E { E::NoMemory } }
-- std's word
fn f() -> Result<(), AllocError> { Err(AllocError) }
-- std's word in braces
fn f() -> E { E::from(AllocError {}) }
-- std's word with a value
fn f(value: u8) -> NoMemory { AllocFailed { value }.into() }
-- std's word at a path
fn f() -> NoMemory { NoMemory::from(std::alloc::AllocError) }
-- another name
use std::alloc::AllocError as A; fn f() -> A { A }
-- another name of ours
use wall_labels::NoMemory as N;
-- an alias
type A = std::alloc::AllocError; fn f() -> NoMemory { NoMemory::from(A {}) }
-- of no fault
fn f() -> NoMemory { NoMemory::of_fault() }
-- of no fault, later
fn f(r: R) -> Result<u8, NoMemory> { r.or_else(NoMemory::of_fault) }
-- a table's word
fn f(slots: S) -> R { Err(Refused { slots }) }
-- a library's word
fn f() -> K { ErrorKind::OutOfMemory }
-- too large
fn f(a: A) -> Result<V, AllocError> { Vec::with_capacity(a, usize::MAX) }
-- too large, all bits
fn f(a: A) -> Result<V, AllocError> { Vec::with_capacity(a, !0) }
-- too large, a product
fn f(a: A) -> Result<V, AllocError> { Vec::with_capacity(a, (1 << 30) * (1 << 30)) }
-- too large, read from a text
fn f(a: A) -> R { Vec::with_capacity(a, usize::from_str_radix("99", 16).unwrap_or(0)) }
-- too large, spelled
fn f(v: &mut V) -> Result<(), AllocError> { v.reserve(1_099_511_627_776) }
-- too large, named
const N: usize = usize::MAX; fn f(v: &mut V) { v.reserve_exact(N / 2) }
-- too large, kept
fn f(v: &mut V) { let n = u64::MAX as usize; v.reserve(n) }
-- too large, shifted
fn f(v: &mut V, n: usize) -> R { if n == 256 { v.reserve(n << 50)?; } Ok(()) }
-- too large, in a list
fn f(a: A) -> R { let v = vec![in a; 0u8; usize::MAX]?; Ok(v) }
-- two in one alternative
fn f(e: P) -> E { match e { (D::NoMemory, D::NoMemory) | _ => E::NoMemory } }
-- two in one alternative, within
fn f(e: P) -> E { match e { Some((D::NoMemory, D::NoMemory) | _) => E::NoMemory, _ => E::Zero } }
-- what is matched is a choice
fn f(c: bool) -> u8 { match if c { E::NoMemory } else { E::Zero } { E::Zero => 1, _ => 2 } }
-- what is matched is a block
fn f(e: D) -> E { if let D::NoMemory = { if g() { return E::NoMemory; } e } { A } else { B } }
-- of tests and of nothing else
#[cfg(not(test))] fn f() -> E { E::NoMemory }
-- another one of its name
#[derive(Default)] struct NoMemory;
-- another question of its name
impl D { fn is_memory(&self) -> bool { true } }
-- a table's word at a path
fn f(slots: S) -> R { Err(atomic_table::Refused { slots }) }
-- another's word for a table's
fn f(r: R) -> S { match r { Claim::Refused { at } => Err(NoMemory::of_fault()), _ => Ok(1) } }
-- a macro's argument
fn f() -> E { fault!(E, NoMemory) }
-- all names at once
use E::*; fn f() -> E { NoMemory }
-- a loop that waits for it
fn f(r: R) -> E { while let D::NoMemory = r { return E::NoMemory; } E::Zero }
-- in a guard
fn f(n: u8) -> u8 { match n { m if g(E::NoMemory) => m, _ => 0 } }
-- no pattern
fn f() { let x + E::NoMemory = y; }
-- a macro's
macro_rules! ran_out { () => { E::NoMemory }; }
-- not closed
fn f() { (
""")

GOOD = cases(r"""
-- from
impl From<NoMemory> for E { fn from(_: NoMemory) -> E { E::NoMemory } }
-- from, by Self
impl From<wall_labels::NoMemory> for E { fn from(_: NoMemory) -> E { Self::NoMemory } }
-- from std
impl<T: Drop> From<AllocFailed<T>> for E { fn from(_e: AllocFailed<T>) -> E { E::NoMemory } }
-- from, with a lifetime
impl From<NoMemory> for E<'static> { fn from(_: NoMemory) -> E<'static> { E::NoMemory } }
-- from what carries it
struct M(NoMemory); impl From<M> for E { fn from(m: M) -> E { E::NoMemory } }
-- by ?
fn f(v: &mut V) -> Result<(), NoMemory> { v.push(1)?; Ok(()) }
-- by into
fn f(r: R) -> Result<(), E> { match r {
    Ok(()) => Ok(()), Err(e) => Err(E::from(NoMemory::from(e))) } }
-- handed on
fn f(e: D) -> E { match e { D::NoMemory => E::NoMemory, D::Zero => E::Zero } }
-- handed on in a block
fn f(e: R) -> R2 { match e { Err(D::NoMemory) => { g(); return Err(E::NoMemory); } _ => Ok(()) } }
-- handed on by if let
fn f(e: D) -> E { if let D::NoMemory = e { return E::NoMemory; } E::Zero }
-- handed on from both
fn f(e: D) -> E { match e { D::NoMemory | D::OutOfMemory => E::NoMemory, _ => E::Zero } }
-- one of two, beside the other
fn f(e: P) -> E { match e { (D::Zero | D::NoMemory, D::NoMemory) => E::NoMemory, _ => E::Zero } }
-- the evidence again
fn f(r: R) -> S { match r { Err(D::NoMemory) => Err(NoMemory::of_fault()), _ => Ok(1) } }
-- of a table
fn f(r: R) -> S { match r { Err(Refused {
    slots }) => Err(NoMemory::of_fault()), Ok(x) => Ok(x) } }
-- a library's error
fn f(e: L) -> E { if e.is_memory() { E::NoMemory } else { E::Zero } }
-- compared
fn f(e: E) -> bool { e == E::NoMemory || e.fault != d::E::NoMemory }
-- matched
fn f(e: E) -> bool { matches!(e, E::NoMemory | E::Zero if e.is()) }
-- in a clause
fn f(n: u8) -> R
    ensures none { result ≢ Err E.NoMemory }
    ensures { codes "}" ≡ NoMemory }
{ g(n) }
-- in a ghost item
impl A for E { ghost from_gives = { λ _ e. e ≡ NoMemory }; ghost use A.{NoMemory}; }
-- a variant, a field, a type
enum E { Zero, NoMemory } struct S { r: Option<NoMemory> } type R = Result<u8, NoMemory>;
-- in a text
fn f() -> &str { r#"E::NoMemory"# } /* Err(NoMemory) */ const C: char = '\'';
-- in an attribute
#[error("NoMemory")] #[doc(NoMemory)] struct S;
-- a test's
#[cfg(test)] mod tests { fn f() { assert_eq!(g(), Err(E::NoMemory)); } }
-- sizes
fn f(v: &mut V, n: usize) { v.reserve(n.min(usize::MAX)); v.reserve(65_536) }
""")
