//! Small packs for the tables that the definitions of the format are computed on (crates/pack_rules/proofs/Examples): the
//! check's answers at every kind of field, what packs are read as and written from, and answers in a caller's buffers.

use crate::answer::{check, Outcome};
use crate::decode::{decode, refused_at};
use crate::encode::{encode, encode_any, Mark};
use crate::make;
use crate::package::*;
use crate::report::{report, Refused};
use crate::special::{machine, pad, state};
use std::collections::BTreeSet;

/// A pack with the check's answer.
pub struct Check {
    pub says: String,
    pub pack: Vec<u8>,
}

fn said(says: &str, pack: impl Into<Vec<u8>>) -> Check {
    Check { says: says.into(), pack: pack.into() }
}

/// Other bytes at an offset of a pack: what field is there.
pub struct Change {
    pub says: String,
    pub at: usize,
    pub bytes: Vec<u8>,
}

impl Change {
    pub fn of(&self, pack: &[u8]) -> Vec<u8> {
        let mut changed = pack.to_vec();
        changed.splice(self.at..self.at + self.bytes.len(), self.bytes.iter().copied());
        changed
    }
}

/// A chart, as text and as a package, with changes of its pack.
pub struct Chart {
    pub says: &'static str,
    pub text: &'static str,
    pub package: Package,
    pub changes: Vec<Change>,
}

/// An outcome, as the definitions call it, with two buffers.
pub struct Call {
    pub says: &'static str,
    pub made: String,
    pub outcome: Outcome,
    pub output: usize,
    pub report: usize,
}

/// The number and value of the check.
pub fn answer(pack: &[u8]) -> (u32, u32) {
    let a = check(pack).answer(0, 0);
    (a.number, a.value)
}

// --- packs alone ---

/// A name section before five empty ones.
fn names(section: &[u8]) -> Vec<u8> {
    [section, &[0; 10]].concat()
}

/// Machine M with the only state M, in it a region with the state M, and so on.
fn nested(level: usize) -> Package {
    let mut p = Package { old: 1, ..Package::default() };
    let m = p.names.push(b"M");
    let mut inner = state(m);
    for _ in 1..level {
        let region = Region { initial: m, history: false, states: vec![inner] };
        inner = State { regions: vec![region], ..state(m) };
    }
    p.machines.push(machine(m, m, vec![inner]));
    p
}

/// The name section's rules.
fn name_checks() -> Vec<Check> {
    let mut checks = vec![
        said("every byte that a name may have at the ends of its ranges", names(b"\x01\0\x0709AZ_az")),
        said("an empty name, at its length byte", names(&[1, 0, 0])),
        said("a bad character, at it", names(b"\x01\0\x02a-")),
        said("a bad character before the end that is missing", b"\x01\0\x09a-".to_vec()),
        said("a name that ends early", b"\x01\0\x09ab".to_vec()),
        said("a repeated name, at its length byte", names(b"\x02\0\x01a\x01a")),
        said("the first name again after another", names(b"\x03\0\x01a\x01b\x01a")),
        said("a repeated name before the end that is missing", b"\x03\0\x01a\x01a".to_vec()),
        said("a name that may become a repeated one ends early", b"\x02\0\x02ab\x02a".to_vec()),
        said("the beginning of another name is no repeated one", names(b"\x02\0\x02aa\x01a")),
    ];
    let bad = b"/:@[^`{\x80";
    checks.extend(bad.iter().map(|b| said(&format!("{} in a name", b.escape_ascii()), [1, 0, 1, *b])));
    checks
}

pub fn checks() -> Vec<Check> {
    let [deep, deeper] = [nested(MAX_LEVEL), nested(MAX_LEVEL + 1)].map(|p| encode_any(&p).0);
    let at = check(&deeper).answer(0, 0).value as usize;
    let mut illegal = deeper.clone();
    illegal[at..at + 3].fill(255);
    let mut checks = vec![
        said("twelve zero bytes", vec![0; 12]),
        said("no bytes", vec![]),
        said("half a count", vec![0; 11]),
        said("a byte after the origins", vec![0; 13]),
        said("an illegal index before the end that is missing", vec![0, 0, 1, 0, 0, 0]),
        said("half an index, illegal however it goes on", vec![0, 0, 1, 0, 9]),
        said("65,536 bytes are read", vec![255; MAX_PACK]),
        said("65,537 bytes are not", vec![255; MAX_PACK + 1]),
    ];
    checks.extend(name_checks());
    checks.extend([
        said("level 8", deep),
        said("level 9, at the region", deeper.clone()),
        said("level 9 where the pack ends", deeper[..at].to_vec()),
        said("level 9 cut in the count of regions before it", deeper[..at - 1].to_vec()),
        said("level 9 before its illegal bytes", illegal),
    ]);
    checks
}

// --- charts ---

const TYPES: &str = "
enum E: A, B
function F
  input a: bool, a: int8, a: int16, a: int32, a: int64, a: uint8, a: uint16, a: uint32, a: uint64
  output a: float32, a: float64, a: char
  local b: E^0^4294967294, a: E
operator A
imported B
";

const EXPRESSIONS: &str = "
operator N
  v, w = (if c then v else w, pre v -> w)
  () = [N(v, w), N(), v.w, v[w]]
  v = R{w: v, c: w}
  v = (v when c) :> int16^3
  v = merge(c, v when not c, w)
  v = (map<F>(v, w), fold<F>(c; v))
";

const OPERATORS: &str = "
operator N
  () = [true, false, 258, -2, 0.5, 'a', '\\xff', not v, - v]
  () = v and (v or (v xor (v => (v = (v <> (v < (v <= (v > (v >= (v + (v - (v * (v / (v mod (v land (v lor
    (v lxor (v lsl (v lsr w)))))))))))))))))))
";

const MACHINES: &str = "
machine M in N
  input v: bool
  output o: bool, p: int8
  local l: char
  initial S
  state S
    o, p = v
    () = o
    until v then T
    until o then S
    region history
      initial A
      state A
        region
          initial B
      state B
    region
      initial T
    refines M
  state T
machine N
  initial S
";

const ACTIVATIONS: &str = "
activation A in N
  output o: bool, p: char
  branch B if v
    o = v
    p = o
  branch C if o
  else
    p = v
activation C in B
  else
origin machine M in N equations 258 until 65535
origin activation A in N equations 1 until 0 branches B, C
";

/// One change for each kind of field of a pack: an index set to the number of names, a byte to the first illegal value.
fn changes(p: &Package) -> Vec<Change> {
    let (pack, marks) = encode_any(p);
    let (mut seen, mut changes) = (BTreeSet::new(), vec![]);
    for (at, mark) in marks {
        let tried: Vec<Vec<u8>> = match mark {
            Mark::Index => vec![(pack[0] as u16).to_le_bytes().to_vec()],
            Mark::Byte => (0..=255).map(|b| vec![b]).collect(),
            _ => continue,
        };
        let refused = tried.into_iter().find_map(|bytes| {
            let change = Change { says: String::new(), at, bytes };
            let (refusal, what) = refused_at(&change.of(&pack))?;
            (refusal.number == 3 && refusal.value as usize == at).then_some(Change { says: what.into(), ..change })
        });
        // Of clocks both kinds, told by the tag.
        let kind = |c: &Change| (c.says.clone(), (c.says == "clock").then_some(pack[at - 1]));
        if let Some(change) = refused.filter(|c| seen.insert(kind(c))) {
            changes.push(change);
        }
    }
    changes
}

/// 65,535 and 65,534 as an owner and as a refinement.
fn absent(p: &Package) -> Vec<Change> {
    let fields = ["machine owner", "refinement", "activation owner"];
    let set = |c: &Change, number: u16| Change {
        says: format!("{} {number}", c.says),
        at: c.at,
        bytes: number.to_le_bytes().into(),
    };
    let changes = changes(p).into_iter().filter(|c| fields.contains(&&c.says[..]));
    changes.flat_map(|c| [NONE, NONE - 1].map(|number| set(&c, number))).collect()
}

fn chart(text: &'static str) -> Chart {
    let pack = make::pack(text).expect("a chart");
    let package = decode(&pack).expect("a pack that reads");
    assert_eq!(encode(&package).expect("a pack"), pack);
    let changes = changes(&package).into_iter().chain(absent(&package)).collect();
    Chart { says: "", text, package, changes }
}

pub fn charts() -> Vec<Chart> {
    ["", TYPES, EXPRESSIONS, OPERATORS, MACHINES, ACTIVATIONS].map(chart).into()
}

const MACHINE: &str = "
machine M
  initial S
  state S
";

const NUMBERS: &str = "
operator N
  input N: char^2
  N = -1
";

/// Charts whose packs are cut at each byte.
pub fn cuts() -> Vec<Chart> {
    [MACHINE, NUMBERS].map(chart).into()
}

const NEW_NAMES: &str = "
enum E: A, B, E
operator B
  A = C
machine C in E
  initial D
origin machine D in A equations 0 until 1 branches B, D
";

/// Packages with new names.
pub fn additions() -> Vec<Chart> {
    let whole = make::package(NEW_NAMES).expect("a chart");
    // An enum that is taken away gives the old names.
    let mut some = make::package(&format!("enum D: Z, A{NEW_NAMES}")).expect("a chart");
    (some.old, _) = (3, some.enums.remove(0));
    let charts = [("no old names", whole), ("D, Z and A are old names, and nothing uses Z", some)];
    charts.map(|(says, package)| Chart { says, text: NEW_NAMES, package, changes: vec![] }).into()
}

// --- answers in buffers ---

/// What writing an enum of a new name of so many bytes comes to.
fn named(length: usize) -> Outcome {
    let mut p = Package::default();
    let name = p.names.push(&vec![b'a'; length]);
    p.enums.push(Enum { name, variants: vec![] });
    Outcome::written(&p)
}

/// A pack of so many bytes.
fn padded(size: usize) -> Outcome {
    let mut p = nested(1);
    pad(&mut p, size);
    assert_eq!(encode_any(&p).0.len(), size);
    Outcome::written(&p)
}

pub fn calls() -> Vec<Call> {
    let whole = |says, length: usize| {
        let pack = vec![0; length];
        Call { says, made: format!("check (replicate {length} 0)"), outcome: check(&pack), output: 3, report: 2 }
    };
    let nothing = |says, output| {
        let outcome = Outcome::written(&Package::default());
        Call { says, made: format!("written {output} nothing"), outcome, output, report: 2 }
    };
    let long = |says, length| {
        let made = format!("written 0 (named (replicate {length} 97))");
        Call { says, made, outcome: named(length), output: 0, report: 1 }
    };
    let sized = |says, size| {
        let made = format!("sized 0 (replicate {size} 0)");
        Call { says, made, outcome: padded(size), output: 0, report: 1 }
    };
    let refused = [Refused { kind: 7, names: vec!["M".into(), "M".into()] }, Refused::too_large("ab")];
    let told = |says, report_length| Call {
        says,
        made: format!("reported {report_length} (report_bytes refused)"),
        outcome: Outcome::Refused(report(&refused)),
        output: 3,
        report: report_length,
    };
    vec![
        whole("the check of a legal pack changes no buffer", 12),
        whole("nor that of another", 11),
        nothing("a pack in a longer buffer", 15),
        nothing("in one of its length", 12),
        nothing("in one that is a byte shorter", 11),
        long("a new name of 255 bytes", 255),
        long("of 256: 8 before 9", 256),
        sized("65,536 bytes", MAX_PACK),
        sized("65,537: 8 before 9", MAX_PACK + 1),
        told("a report in a longer buffer", 14),
        told("in one of its length", 11),
        told("in one that is a byte shorter", 10),
    ]
}
