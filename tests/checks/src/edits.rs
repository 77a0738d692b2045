//! Edits of trees: each at each kind of place, and each refusal. A tree is shown in tree order, a leaf by its
//! name's letter, an inner vdev by its kind (M, R or S), its number and its children in brackets.
use crate::built::{self, inner};
use mp_base::{Group, Guid, PlaceRule, Refusal};
use std::alloc::Global;
use std::process::Abort;
use std::test::Fail;
use vdev_tree::{GraftFault, Kind, LeafVdev, State, Top, Vdev};

/// The leaf that comes in, and the number of the inner vdev that is made.
const NEW: u8 = b'x';

const MADE: u64 = 9;

#[derive(Clone, Copy, Debug, PartialEq, Eq)]
enum Edit {
    Attach,
    Replace,
    Spare,
    Prune,
}

/// A leaf of this letter. Its number is the letter's byte, it owes the group behind that number, and it is
/// DEGRADED where that is odd.
fn member(alloc: Global, letter: u8) -> Result<LeafVdev, Fail> {
    let number = u64::from(letter);
    let group = number + 1;
    built::member(
        alloc,
        number,
        &[letter],
        state_of(letter),
        &[(group, group)],
    )
}

fn state_of(letter: u8) -> State {
    if letter % 2 == 1 {
        State::Degraded
    } else {
        State::Offline
    }
}

/// Whether the leaf is just as it was made.
fn is_as_made(leaf: &LeafVdev) -> bool {
    let Some(letter) = leaf.name.as_bytes().first() else {
        return false;
    };
    let group = Group(u64::from(*letter) + 1);
    leaf.guid == Guid(u64::from(*letter))
        && leaf.state == state_of(*letter)
        && leaf.log.ranges() == 1
        && leaf.log.next_run(Group(0)) == Some((group, group))
}

/// The leaves of these letters.
fn leaves(alloc: Global, letters: &[u8]) -> Result<Vec<Vdev>, Fail> {
    let mut vdevs = Vec::new(alloc);
    for letter in letters {
        vdevs.push(Vdev::Leaf(member(alloc, *letter)?))?;
    }
    Ok(vdevs)
}

/// The mirror 1 of these children.
fn top_of(children: Vec<Vdev>) -> Result<Top, Fail> {
    Ok(Top::new(inner(1, Kind::Mirror, children), 500).ok_or("no tree of a top")?)
}

/// A mirror with each kind of place: M1(a R2(b n) S3(c s) S4(d t u) S5(R6(e o) v)).
fn all_places(alloc: Global) -> Result<Top, Fail> {
    let mut children = leaves(alloc, b"a")?;
    children.push(inner(2, Kind::Replacing, leaves(alloc, b"bn")?))?;
    children.push(inner(3, Kind::Spare, leaves(alloc, b"cs")?))?;
    children.push(inner(4, Kind::Spare, leaves(alloc, b"dtu")?))?;
    let mut spared = Vec::new(alloc);
    spared.push(inner(6, Kind::Replacing, leaves(alloc, b"eo")?))?;
    spared.push(Vdev::Leaf(member(alloc, b'v')?))?;
    children.push(inner(5, Kind::Spare, spared))?;
    top_of(children)
}

fn kind_letter(kind: Kind) -> u8 {
    match kind {
        Kind::Mirror => b'M',
        Kind::Replacing => b'R',
        Kind::Spare => b'S',
    }
}

fn digit(guid: Guid) -> u8 {
    match guid.0 {
        n @ 0..=9 => b'0' + n as u8,
        _ => b'?',
    }
}

/// Shows a vdev behind what was shown before. A leaf that isn't as it was made is shown as `!`.
fn show(vdev: &Vdev, shown: &mut Vec<u8>) -> Result<(), Fail> {
    match vdev {
        Vdev::Leaf(leaf) => {
            let letter = leaf.name.as_bytes().first().copied().unwrap_or(b'!');
            shown.push(if is_as_made(leaf) { letter } else { b'!' })?;
        }
        Vdev::Inner(inner) => {
            shown.push(kind_letter(inner.kind))?;
            shown.push(digit(inner.guid))?;
            shown.push(b'(')?;
            for child in &inner.children {
                show(child, shown)?;
            }
            shown.push(b')')?;
        }
    }
    Ok(())
}

fn refusal_word(why: &Refusal) -> &'static [u8] {
    match why {
        Refusal::NoVdev => b"vdev",
        Refusal::WrongPlace {
            rule: PlaceRule::Role,
        } => b"role",
        Refusal::TreeFull { limit: 8, count: 9 } => b"full 8 9",
        _ => b"another",
    }
}

/// Makes the edit, and answers the leaf that came out, if any, or why it was refused.
fn edited(
    alloc: Global,
    top: &mut Top,
    edit: Edit,
    at: u8,
) -> Result<Result<LeafVdev, Refusal>, Fail> {
    let at = Guid(u64::from(at));
    let leaf = member(alloc, NEW)?;
    let grafted = match edit {
        Edit::Attach => top.graft_mirror(at, leaf),
        Edit::Replace => top.graft_replacing(at, Guid(MADE), leaf),
        Edit::Spare => top.graft_spare(at, Guid(MADE), leaf),
        Edit::Prune => return Ok(pruned(top, at)),
    };
    match grafted {
        Ok(()) => Ok(Ok(member(alloc, NEW)?)),
        Err(fault) => handed_back(fault),
    }
}

fn pruned(top: &mut Top, at: Guid) -> Result<LeafVdev, Refusal> {
    match top.prune(at) {
        Ok(leaf) => Ok(leaf),
        Err(fault) => Err(fault.0),
    }
}

/// Why the leaf wasn't put in. It is handed back as it was.
fn handed_back(fault: GraftFault) -> Result<Result<LeafVdev, Refusal>, Fail> {
    if fault.leaf.guid == Guid(u64::from(NEW)) && is_as_made(&fault.leaf) {
        Ok(Err(fault.why))
    } else {
        Err(Fail::from("another leaf came back"))
    }
}

/// The tree behind the edit, or the refusal's word, where the tree is shown as before.
fn outcome(alloc: Global, mut top: Top, edit: Edit, at: u8) -> Result<Vec<u8>, Fail> {
    let mut before = Vec::new(alloc);
    show(&top.mirror, &mut before)?;
    let done = edited(alloc, &mut top, edit, at)?;
    let mut after = Vec::new(alloc);
    show(&top.mirror, &mut after)?;
    if top.sectors != 500 || !top.mirror.is_top() {
        return Err(Fail::from("no tree of a top is left"));
    }
    match done {
        Ok(leaf) if edit == Edit::Prune && leaf.guid != Guid(u64::from(at)) => {
            Err(Fail::from("another leaf came out"))
        }
        Ok(_) => Ok(after),
        Err(_) if before.as_slice() != after.as_slice() => Err(Fail::from("a refusal changed it")),
        Err(why) => Ok(Vec::from_slice(alloc, refusal_word(&why))?),
    }
}

/// An edit at a leaf of the mirror with each kind of place, and what comes of it.
type Row = (Edit, u8, &'static [u8]);

const ATTACHED: &[Row] = &[
    (Edit::Attach, b'a', b"M1(aR2(bn)S3(cs)S4(dtu)S5(R6(eo)v)x)"),
    (Edit::Attach, b'b', b"role"),
    (Edit::Attach, b'n', b"role"),
    (Edit::Attach, b'c', b"role"),
    (Edit::Attach, b's', b"role"),
    (Edit::Attach, b'd', b"role"),
    (Edit::Attach, b't', b"role"),
    (Edit::Attach, b'u', b"role"),
    (Edit::Attach, b'e', b"role"),
    (Edit::Attach, b'o', b"role"),
    (Edit::Attach, b'v', b"role"),
    (Edit::Attach, b'z', b"vdev"),
    (Edit::Attach, 1, b"vdev"),
    (Edit::Attach, 2, b"vdev"),
];

const REPLACED: &[Row] = &[
    (
        Edit::Replace,
        b'a',
        b"M1(R9(ax)R2(bn)S3(cs)S4(dtu)S5(R6(eo)v))",
    ),
    (Edit::Replace, b'b', b"role"),
    (Edit::Replace, b'n', b"role"),
    (
        Edit::Replace,
        b'c',
        b"M1(aR2(bn)S3(R9(cx)s)S4(dtu)S5(R6(eo)v))",
    ),
    (Edit::Replace, b's', b"role"),
    (
        Edit::Replace,
        b'd',
        b"M1(aR2(bn)S3(cs)S4(R9(dx)tu)S5(R6(eo)v))",
    ),
    (Edit::Replace, b't', b"role"),
    (Edit::Replace, b'u', b"role"),
    (Edit::Replace, b'e', b"role"),
    (Edit::Replace, b'o', b"role"),
    (Edit::Replace, b'v', b"role"),
    (Edit::Replace, b'z', b"vdev"),
    (Edit::Replace, 3, b"vdev"),
];

const SPARED: &[Row] = &[
    (
        Edit::Spare,
        b'a',
        b"M1(S9(ax)R2(bn)S3(cs)S4(dtu)S5(R6(eo)v))",
    ),
    (Edit::Spare, b'b', b"role"),
    (Edit::Spare, b'n', b"role"),
    (Edit::Spare, b'c', b"role"),
    (Edit::Spare, b's', b"M1(aR2(bn)S3(csx)S4(dtu)S5(R6(eo)v))"),
    (Edit::Spare, b'd', b"role"),
    (Edit::Spare, b't', b"role"),
    (Edit::Spare, b'u', b"role"),
    (Edit::Spare, b'e', b"role"),
    (Edit::Spare, b'o', b"role"),
    (Edit::Spare, b'v', b"M1(aR2(bn)S3(cs)S4(dtu)S5(R6(eo)vx))"),
    (Edit::Spare, b'z', b"vdev"),
    (Edit::Spare, 6, b"vdev"),
];

const PRUNED: &[Row] = &[
    (Edit::Prune, b'a', b"M1(R2(bn)S3(cs)S4(dtu)S5(R6(eo)v))"),
    (Edit::Prune, b'b', b"M1(anS3(cs)S4(dtu)S5(R6(eo)v))"),
    (Edit::Prune, b'n', b"M1(abS3(cs)S4(dtu)S5(R6(eo)v))"),
    (Edit::Prune, b'c', b"M1(aR2(bn)sS4(dtu)S5(R6(eo)v))"),
    (Edit::Prune, b's', b"M1(aR2(bn)cS4(dtu)S5(R6(eo)v))"),
    (Edit::Prune, b'd', b"M1(aR2(bn)S3(cs)S4(tu)S5(R6(eo)v))"),
    (Edit::Prune, b't', b"M1(aR2(bn)S3(cs)S4(du)S5(R6(eo)v))"),
    (Edit::Prune, b'u', b"M1(aR2(bn)S3(cs)S4(dt)S5(R6(eo)v))"),
    (Edit::Prune, b'e', b"M1(aR2(bn)S3(cs)S4(dtu)S5(ov))"),
    (Edit::Prune, b'o', b"M1(aR2(bn)S3(cs)S4(dtu)S5(ev))"),
    (Edit::Prune, b'v', b"M1(aR2(bn)S3(cs)S4(dtu)R6(eo))"),
    (Edit::Prune, b'z', b"vdev"),
    (Edit::Prune, 1, b"vdev"),
];

fn meets(rt: &impl Abort, alloc: Global, rows: &[Row]) -> Result<(), Fail> {
    for (edit, at, wanted) in rows {
        let came = outcome(alloc, all_places(alloc)?, *edit, *at)?;
        assert_eq!(rt; came.as_slice(), *wanted, "{edit:?} at {at}");
    }
    Ok(())
}

#[test]
fn a_leaf_is_attached_beside_a_child_of_a_mirror_alone(rt: HostRuntime) -> Result<(), Fail> {
    meets(&rt, rt.alloc(), ATTACHED)
}

#[test]
fn a_child_of_a_mirror_and_the_first_of_a_spare_vdev_are_replaced(
    rt: HostRuntime,
) -> Result<(), Fail> {
    meets(&rt, rt.alloc(), REPLACED)
}

#[test]
fn a_spare_comes_to_a_child_of_a_mirror_and_to_an_only_spare(rt: HostRuntime) -> Result<(), Fail> {
    meets(&rt, rt.alloc(), SPARED)
}

#[test]
fn a_leaf_goes_and_its_vdev_becomes_what_is_left(rt: HostRuntime) -> Result<(), Fail> {
    meets(&rt, rt.alloc(), PRUNED)
}

#[test]
fn a_mirror_has_at_most_8_children_and_keeps_its_last_leaf(rt: HostRuntime) -> Result<(), Fail> {
    let alloc = rt.alloc();
    let rows: [(&[u8], Edit, u8, &[u8]); 8] = [
        (b"abcdefg", Edit::Attach, b'g', b"M1(abcdefgx)"),
        (b"abcdefgh", Edit::Attach, b'a', b"full 8 9"),
        (b"abcdefgh", Edit::Attach, b'z', b"vdev"),
        (b"abcdefgh", Edit::Replace, b'h', b"M1(abcdefgR9(hx))"),
        (b"abcdefgh", Edit::Spare, b'b', b"M1(aS9(bx)cdefgh)"),
        (b"abcdefgh", Edit::Prune, b'h', b"M1(abcdefg)"),
        (b"a", Edit::Prune, b'a', b"role"),
        (b"a", Edit::Prune, b'b', b"vdev"),
    ];
    for (letters, edit, at, wanted) in rows {
        let came = outcome(alloc, top_of(leaves(alloc, letters)?)?, edit, at)?;
        assert_eq!(rt; came.as_slice(), wanted, "{edit:?} at {at}");
    }
    Ok(())
}

#[test]
fn what_is_left_of_an_only_child_may_be_its_last_leaf(rt: HostRuntime) -> Result<(), Fail> {
    let alloc = rt.alloc();
    let rows: [(Kind, &[u8], u8, &[u8]); 5] = [
        (Kind::Replacing, b"an", b'a', b"M1(n)"),
        (Kind::Replacing, b"an", b'n', b"M1(a)"),
        (Kind::Spare, b"as", b'a', b"M1(s)"),
        (Kind::Spare, b"as", b's', b"M1(a)"),
        (Kind::Spare, b"ast", b'a', b"M1(S2(st))"),
    ];
    for (kind, letters, at, wanted) in rows {
        let mut children = Vec::new(alloc);
        children.push(inner(2, kind, leaves(alloc, letters)?))?;
        let came = outcome(alloc, top_of(children)?, Edit::Prune, at)?;
        assert_eq!(rt; came.as_slice(), wanted, "{kind:?} at {at}");
    }
    Ok(())
}
