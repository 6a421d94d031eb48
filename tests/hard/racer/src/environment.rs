//! Environments: types of variables that name mailboxes, in ascending order of variable. They are tries by the bits of variables, which
//! share what they have in common; so what is added, taken away or joined costs as much as is new, however many variables there are.

use crate::hashing::Map;
use crate::types::MailboxType;
use std::rc::Rc;

#[derive(Clone, Default)]
pub struct Environment(pub Option<Rc<Twig>>);

pub enum Twig {
    Leaf(u32, MailboxType),
    /// Variables that differ first at this bit: those without it, and those with it.
    Fork {
        prefix: u32,
        bit: u32,
        low: Rc<Twig>,
        high: Rc<Twig>,
    },
}

type Part = Option<Rc<Twig>>;

impl Twig {
    /// A variable in it, or what its variables begin with.
    fn key(&self) -> u32 {
        match self {
            Twig::Leaf(variable, _) => *variable,
            Twig::Fork { prefix, .. } => *prefix,
        }
    }

    fn bit(&self) -> u32 {
        match self {
            Twig::Leaf(..) => 0,
            Twig::Fork { bit, .. } => *bit,
        }
    }
}

fn highest_bit(number: u32) -> u32 {
    if number == 0 {
        0
    } else {
        1 << (31 - number.leading_zeros())
    }
}

/// The twig of two sides that part at the bit.
fn forked(bit: u32, low: Part, high: Part) -> Part {
    match (low, high) {
        (Some(low), Some(high)) => {
            let prefix = low.key() & !(2 * bit as u64 - 1) as u32;
            Some(Rc::new(Twig::Fork { prefix, bit, low, high }))
        }
        (one, other) => one.or(other),
    }
}

/// The bit at which these twigs part, or 0 where they all are of one variable.
fn parting<'a>(twigs: impl Iterator<Item = &'a Rc<Twig>> + Clone) -> u32 {
    let first = twigs.clone().next().map_or(0, |it| it.key());
    twigs.map(|it| it.bit().max(highest_bit(it.key() ^ first))).max().unwrap_or(0)
}

/// What of a twig lies to both sides of the bit.
fn sides(twig: Option<&Rc<Twig>>, bit: u32) -> [Option<&Rc<Twig>>; 2] {
    match twig.map(|it| &**it) {
        None => [None, None],
        Some(Twig::Fork { bit: own, low, high, .. }) if *own == bit => [Some(low), Some(high)],
        Some(other) if other.key() & bit == 0 => [twig, None],
        Some(_) => [None, twig],
    }
}

fn is_same(one: &Rc<Twig>, other: &Rc<Twig>) -> bool {
    Rc::ptr_eq(one, other)
}

impl Environment {
    pub fn new() -> Environment {
        Environment(None)
    }

    pub fn one(variable: u32, of: MailboxType) -> Environment {
        Environment(Some(Rc::new(Twig::Leaf(variable, of))))
    }

    pub fn is_empty(&self) -> bool {
        self.0.is_none()
    }

    /// Whether both are one and the same in memory.
    pub fn is_shared_with(&self, other: &Environment) -> bool {
        match (&self.0, &other.0) {
            (None, None) => true,
            (Some(one), Some(other)) => is_same(one, other),
            _ => false,
        }
    }

    pub fn get(&self, variable: u32) -> Option<MailboxType> {
        let mut twig = self.0.as_ref()?;
        loop {
            match &**twig {
                Twig::Leaf(own, of) => return (*own == variable).then_some(*of),
                Twig::Fork { bit, low, high, .. } => twig = if variable & bit == 0 { low } else { high },
            }
        }
    }

    /// With a variable more, in the place of the same one.
    pub fn with(&self, variable: u32, of: MailboxType) -> Environment {
        self.joined(&Environment::one(variable, of), &mut |_, _, new| new)
    }

    pub fn without(&self, variable: u32) -> Environment {
        match self.get(variable) {
            None => self.clone(),
            Some(_) => Environment(without(self.0.as_ref(), variable)),
        }
    }

    /// Both together: what both have is joined, in ascending order of variable.
    pub fn joined(
        &self,
        other: &Environment,
        both: &mut impl FnMut(u32, MailboxType, MailboxType) -> MailboxType,
    ) -> Environment {
        Environment(join(self.0.as_ref(), other.0.as_ref(), both))
    }

    /// Each type changed; what stays as it is is shared.
    pub fn mapped(&self, change: &impl Fn(MailboxType) -> MailboxType) -> Environment {
        Environment(self.0.as_ref().map(|it| mapped(it, change)))
    }

    pub fn each(&self, call: &mut impl FnMut(u32, MailboxType)) {
        let mut call = |variable, [of]: [Option<MailboxType>; 1]| {
            if let Some(of) = of {
                call(variable, of);
            }
        };
        walk([self], &|_| false, &mut call);
    }
}

impl FromIterator<(u32, MailboxType)> for Environment {
    fn from_iter<I: IntoIterator<Item = (u32, MailboxType)>>(types: I) -> Environment {
        types.into_iter().fold(Environment::new(), |made, (variable, of)| made.with(variable, of))
    }
}

fn without(twig: Option<&Rc<Twig>>, variable: u32) -> Part {
    match &**twig? {
        Twig::Leaf(..) => None,
        Twig::Fork { bit, low, high, .. } if variable & bit == 0 => {
            forked(*bit, without(Some(low), variable), Some(high.clone()))
        }
        Twig::Fork { bit, low, high, .. } => forked(*bit, Some(low.clone()), without(Some(high), variable)),
    }
}

fn join(
    one: Option<&Rc<Twig>>,
    other: Option<&Rc<Twig>>,
    both: &mut impl FnMut(u32, MailboxType, MailboxType) -> MailboxType,
) -> Part {
    let (Some(first), Some(second)) = (one, other) else {
        return one.or(other).cloned();
    };
    if let (Twig::Leaf(variable, of), Twig::Leaf(second, more)) = (&**first, &**second) {
        if variable == second {
            return Some(Rc::new(Twig::Leaf(*variable, both(*variable, *of, *more))));
        }
    }
    let bit = parting([first, second].into_iter());
    let ([low, high], [other_low, other_high]) = (sides(one, bit), sides(other, bit));
    let low = join(low, other_low, both);
    forked(bit, low, join(high, other_high, both))
}

fn mapped(twig: &Rc<Twig>, change: &impl Fn(MailboxType) -> MailboxType) -> Rc<Twig> {
    match &**twig {
        Twig::Leaf(variable, of) => {
            let new = change(*of);
            if new == *of {
                twig.clone()
            } else {
                Rc::new(Twig::Leaf(*variable, new))
            }
        }
        Twig::Fork { prefix, bit, low, high } => {
            let (new_low, new_high) = (mapped(low, change), mapped(high, change));
            if is_same(low, &new_low) && is_same(high, &new_high) {
                twig.clone()
            } else {
                Rc::new(Twig::Fork { prefix: *prefix, bit: *bit, low: new_low, high: new_high })
            }
        }
    }
}

/// Walks along several environments at once: each variable that one of them names, in ascending order, with what each of them says of
/// it. Parts of them that this says so of are passed by.
pub fn walk<const N: usize>(
    environments: [&Environment; N],
    is_passed: &impl Fn([Option<&Rc<Twig>>; N]) -> bool,
    visit: &mut impl FnMut(u32, [Option<MailboxType>; N]),
) {
    walk_twigs(environments.map(|it| it.0.as_ref()), is_passed, visit);
}

fn walk_twigs<const N: usize>(
    twigs: [Option<&Rc<Twig>>; N],
    is_passed: &impl Fn([Option<&Rc<Twig>>; N]) -> bool,
    visit: &mut impl FnMut(u32, [Option<MailboxType>; N]),
) {
    let Some(first) = twigs.iter().flatten().next() else {
        return;
    };
    if is_passed(twigs) {
        return;
    }
    let bit = parting(twigs.iter().flatten().copied());
    if bit == 0 {
        let types = twigs.map(|it| match it.map(|it| &**it) {
            Some(Twig::Leaf(_, of)) => Some(*of),
            _ => None,
        });
        visit(first.key(), types);
        return;
    }
    let sides = twigs.map(|it| sides(it, bit));
    walk_twigs(sides.map(|it| it[0]), is_passed, visit);
    walk_twigs(sides.map(|it| it[1]), is_passed, visit);
}

/// Whether both are there, and one and the same in memory; or neither is.
pub fn are_shared(one: Option<&Rc<Twig>>, other: Option<&Rc<Twig>>) -> bool {
    match (one, other) {
        (None, None) => true,
        (Some(one), Some(other)) => is_same(one, other),
        _ => false,
    }
}

/// Makes environments of which what is alike is kept once.
#[derive(Default)]
pub struct Builder {
    leaves: Map<(u32, MailboxType), Rc<Twig>>,
    forks: Map<(usize, usize), Rc<Twig>>,
}

impl Builder {
    /// The environment of types whose variables ascend.
    pub fn of(&mut self, types: &[(u32, MailboxType)]) -> Environment {
        Environment(self.twig(types))
    }

    fn twig(&mut self, types: &[(u32, MailboxType)]) -> Part {
        let ((first, of), (last, _)) = (types.first()?, types.last()?);
        if types.len() == 1 {
            let leaf = self.leaves.entry((*first, *of)).or_insert_with(|| Rc::new(Twig::Leaf(*first, *of)));
            return Some(leaf.clone());
        }
        let bit = highest_bit(first ^ last);
        let (low, high) = types.split_at(types.partition_point(|it| it.0 & bit == 0));
        let (low, high) = (self.twig(low)?, self.twig(high)?);
        let key = (Rc::as_ptr(&low) as usize, Rc::as_ptr(&high) as usize);
        if let Some(known) = self.forks.get(&key) {
            return Some(known.clone());
        }
        let fork = forked(bit, Some(low), Some(high))?;
        self.forks.insert(key, fork.clone());
        Some(fork)
    }
}
