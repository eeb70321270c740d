//! The ledger, and the calls that emit steps into it.
use crate::bytes::{count_of, made_of, step_of};
use crate::limits::{MAX_FORMULA_BYTES, MAX_LEDGER_BYTES, MIN_LEDGER_BYTES};
use crate::{AsFace, AsInterval, Claim, Face, Interval, Record, Refusal, Steps, bytes, grown};
use std::fmt;

/// The number of a step of a ledger, by which other proofs cite it. Steps count from 0.
#[derive(Clone, Copy, PartialEq, Eq, PartialOrd, Ord, Hash, Debug)]
pub struct Step(u32);

impl Step {
    /// The step of a number.
    pub const fn new(number: u32) -> Self {
        Self(number)
    }

    /// Its number.
    pub const fn number(self) -> u32 {
        self.0
    }
}

impl From<u32> for Step {
    fn from(number: u32) -> Self {
        Self(number)
    }
}

impl From<Step> for u32 {
    fn from(step: Step) -> Self {
        step.0
    }
}

impl fmt::Display for Step {
    fn fmt(&self, f: &mut fmt::Formatter<'_>) -> fmt::Result {
        self.0.fmt(f)
    }
}

/// What a call made: the step of its judgement, and the result.
#[derive(Clone, PartialEq, Eq, Debug)]
pub struct Made<T> {
    /// The step of the call's own judgement.
    pub step: Step,
    /// The resulting formula.
    pub result: T,
}

/// The boundary of an interval.
#[derive(Clone, PartialEq, Eq, Debug)]
pub struct Boundary {
    /// The step of the call's own judgement.
    pub step: Step,
    /// The face that holds exactly where the interval is zero.
    pub zero: Face,
    /// The face that holds exactly where the interval is one.
    pub one: Face,
}

/// An end of the interval.
#[derive(Clone, Copy, PartialEq, Eq, Hash, Debug)]
pub enum End {
    /// i0.
    Zero,
    /// i1.
    One,
}

/// A ledger: numbered steps in 4 to 1,048,576 bytes, which it owns and which are always well formed.
///
/// The calls take it as `&mut self` and emit the steps of their judgement. Each answers the lowest step with that
/// judgement; asked again it appends nothing. Whatever bytes are handed to a call, it is answered or refused
/// ([`Refusal`]), and a ledger that began empty passes the [`desk`](Self::desk) after every call.
///
/// ```
/// use linefeijoa::{Face, Ledger, Refusal};
///
/// let mut ledger = Ledger::new(2_048)?;
/// let step = ledger.entails(1, &Face::at0(0)?, &Face::ft())?;
/// assert_eq!(step.number(), 5);
/// assert_eq!(ledger.entails(1, &Face::ft(), &Face::at0(0)?), Err(Refusal::NotImplied));
/// assert_eq!(ledger.desk()?, ledger.count());
/// # Ok::<(), Refusal>(())
/// ```
///
/// A call reads the whole ledger, zeros included: a small question is answered fastest on a small one, which can be
/// [extended](Self::extend_to) on [`FullLedger`](Refusal::FullLedger).
///
/// # Threads
///
/// Nothing is kept between calls, so ledgers of different threads have nothing in common. A ledger may be sent to
/// another thread, and looked at from several; a call needs it alone, which the compiler sees to:
///
/// ```compile_fail,E0596
/// let ledger = linefeijoa::Ledger::new(2_048)?;
/// std::thread::scope(|scope| {
///     for d in 0..2 {
///         let ledger = &ledger;
///         scope.spawn(move || ledger.face(d, &[1]));
///     }
/// });
/// # Ok::<(), linefeijoa::Refusal>(())
/// ```
#[derive(Clone, PartialEq, Eq, Hash)]
pub struct Ledger(Vec<u8>);

impl Ledger {
    /// An empty ledger of so many bytes. Refused by 1 where they are not 4 to 1,048,576.
    pub fn new(bytes: usize) -> Result<Self, Refusal> {
        if !(MIN_LEDGER_BYTES..=MAX_LEDGER_BYTES).contains(&bytes) {
            return Err(Refusal::IllFormedLedger);
        }
        Ok(Self(vec![0; bytes]))
    }

    /// A ledger that anyone may have written. Refused by 1 where it is not well formed; what it says is for the
    /// [`desk`](Self::desk) to check.
    pub fn from_bytes(bytes: impl Into<Vec<u8>>) -> Result<Self, Refusal> {
        let bytes = bytes.into();
        count_of(bytes::well_formed(&bytes))?;
        Ok(Self(bytes))
    }

    /// All its bytes, with the zeros behind the steps.
    pub fn as_bytes(&self) -> &[u8] {
        &self.0
    }

    /// All its bytes, handed over.
    pub fn into_bytes(self) -> Vec<u8> {
        self.0
    }

    /// Its bytes up to the last step, without the zeros: the shortest ledger with these steps.
    pub fn used_bytes(&self) -> &[u8] {
        let length = u32::from_le_bytes(self.0[..4].try_into().expect("four bytes"));
        &self.0[..4 + length as usize]
    }

    /// Puts zeros behind, up to so many bytes in all, which leaves its steps as they are. A ledger that is as long stays.
    /// Refused by 1 above 1,048,576.
    pub fn extend_to(&mut self, bytes: usize) -> Result<(), Refusal> {
        if bytes > MAX_LEDGER_BYTES {
            return Err(Refusal::IllFormedLedger);
        }
        let bytes = bytes.max(self.0.len());
        self.0.resize(bytes, 0);
        Ok(())
    }

    /// How many steps it has.
    pub fn count(&self) -> u32 {
        count_of(bytes::well_formed(&self.0)).expect("the bytes are a ledger")
    }

    /// Its steps in order, in one pass: for many steps faster than [`get`](Self::get), which reads the whole ledger.
    pub fn steps(&self) -> Steps<'_> {
        Steps::of(&self.0, self.count())
    }

    /// The step of a number.
    pub fn get(&self, step: impl Into<Step>) -> Option<Record<'_>> {
        Record::look_up(&self.0, step.into())
    }

    /// The line of a step with its byte 10, by the proved writer. It reads the whole ledger; to print many steps,
    /// print those of [`steps`](Self::steps).
    pub fn line(&self, step: impl Into<Step>) -> Option<String> {
        let step = u64::from(step.into().0);
        let line = grown::text(4_096, |out| bytes::write_step(&self.0, step, out)).expect("the bytes are a ledger");
        (!line.is_empty()).then_some(line)
    }

    /// The lines of all steps, each with its byte 10.
    pub fn listing(&self) -> String {
        self.steps().map(|record| format!("{record}\n")).collect()
    }

    /// The step desk: how many steps it passed, which are all of them; every judgement is true then, whoever wrote the
    /// bytes. Refused by 10 with the lowest step that does not follow.
    ///
    /// ```
    /// use linefeijoa::{Ledger, Refusal, Step};
    ///
    /// let mut ledger = Ledger::new(200)?;
    /// ledger.ask(&"entails (s z) (at0 z) ft".parse()?)?;
    /// assert_eq!(ledger.desk(), Ok(6));
    ///
    /// let mut forged = ledger.into_bytes();
    /// forged[31] = 0; // the first reference of step 2
    /// assert_eq!(Ledger::from_bytes(forged)?.desk(), Err(Refusal::DoesNotFollow(Step::new(2))));
    /// # Ok::<(), Refusal>(())
    /// ```
    pub fn desk(&self) -> Result<u32, Refusal> {
        count_of(bytes::step_desk(&self.0))
    }

    /// The repeat test: whether both ledgers end in an entails step with equal operand bytes.
    pub fn repeats(&self, other: &Self) -> bool {
        count_of(bytes::repeats(&self.0, &other.0)) == Ok(1)
    }

    /// The step that all dimensions of the face f are below d. Refused by 2, 3, 4, 7, 8.
    pub fn face(&mut self, d: u64, f: &(impl AsFace + ?Sized)) -> Result<Step, Refusal> {
        step_of(bytes::face(&mut self.0, d, f.as_face()))
    }

    /// The step that all dimensions of the interval r are below d. Refused by 2, 3, 4, 7, 8.
    pub fn interval(&mut self, d: u64, r: &(impl AsInterval + ?Sized)) -> Result<Step, Refusal> {
        step_of(bytes::interval(&mut self.0, d, r.as_interval()))
    }

    /// The boundary of the interval r: the faces that hold exactly where it is zero, and one. Refused by 2, 3, 4, 7.
    ///
    /// ```
    /// use linefeijoa::{Interval, Ledger, Refusal};
    ///
    /// let r: Interval = "(meet (dim z) (neg (dim z)))".parse()?;
    /// let boundary = Ledger::new(2_048)?.boundary(&r)?;
    /// assert_eq!(boundary.zero.to_string(), "(for (at0 z) (at1 z))");
    /// assert_eq!(boundary.one.to_string(), "(fand (at1 z) (at0 z))");
    /// # Ok::<(), Refusal>(())
    /// ```
    pub fn boundary(&mut self, r: &(impl AsInterval + ?Sized)) -> Result<Boundary, Refusal> {
        let (mut zero, mut one) = ([0; MAX_FORMULA_BYTES], [0; MAX_FORMULA_BYTES]);
        let (step, length) = made_of(bytes::boundary(&mut self.0, r.as_interval(), &mut zero, &mut one))?;
        Ok(Boundary { step, zero: Face::made(&zero[..length]), one: Face::made(&one[..length]) })
    }

    /// The step that the interval r is an end wherever the face phi holds, all dimensions being below d.
    /// Refused by 2, 3, 4, 7, 8, 9.
    ///
    /// ```
    /// use linefeijoa::{End, Face, Interval, Ledger, Refusal};
    ///
    /// let mut ledger = Ledger::new(2_048)?;
    /// let (phi, r) = (Face::at1(0)?, Interval::dim(0)?);
    /// assert!(ledger.endpoint(1, &phi, &r, End::One).is_ok());
    /// assert_eq!(ledger.endpoint(1, &phi, &r, End::Zero), Err(Refusal::NotImplied));
    /// # Ok::<(), Refusal>(())
    /// ```
    pub fn endpoint(
        &mut self,
        d: u64,
        phi: &(impl AsFace + ?Sized),
        r: &(impl AsInterval + ?Sized),
        end: End,
    ) -> Result<Step, Refusal> {
        step_of(bytes::endpoint(&mut self.0, d, phi.as_face(), r.as_interval(), (end == End::One).into()))
    }

    /// The face f for all k: it holds where f does with k undetermined; dimensions above k are lowered by one.
    /// Refused by 2, 3, 4, 7.
    ///
    /// ```
    /// use linefeijoa::{Face, Ledger, Refusal};
    ///
    /// let f: Face = "(for (at0 z) (fand (at1 (s z)) (at0 (s (s z)))))".parse()?;
    /// let made = Ledger::new(2_048)?.forall(&f, 1)?;
    /// assert_eq!(made.result.to_string(), "(for (at0 z) (fand ff (at0 (s z))))");
    /// # Ok::<(), Refusal>(())
    /// ```
    pub fn forall(&mut self, f: &(impl AsFace + ?Sized), k: u64) -> Result<Made<Face>, Refusal> {
        self.made(Face::made, |ledger, out| bytes::forall(ledger, f.as_face(), k, out))
    }

    /// The face t with dimensions from k on raised by one. Refused by 2, 3, 4, 5, 7.
    pub fn shift_face(&mut self, t: &(impl AsFace + ?Sized), k: u64) -> Result<Made<Face>, Refusal> {
        self.made(Face::made, |ledger, out| bytes::shift_face(ledger, t.as_face(), k, out))
    }

    /// The interval t with dimensions from k on raised by one. Refused by 2, 3, 4, 5, 7.
    pub fn shift_interval(&mut self, t: &(impl AsInterval + ?Sized), k: u64) -> Result<Made<Interval>, Refusal> {
        self.made(Interval::made, |ledger, out| bytes::shift_interval(ledger, t.as_interval(), k, out))
    }

    /// The face t with the interval r for dimension k; dimensions above k are lowered by one, r stays as it is.
    /// Refused by 2, 3, 4, 5, 7.
    ///
    /// ```
    /// use linefeijoa::{Face, Interval, Ledger, Refusal};
    ///
    /// let r = Interval::dim(3)?.join(&Interval::i0())?;
    /// let made = Ledger::new(2_048)?.substitute_face(&Face::at1(0)?, 0, &r)?;
    /// assert_eq!(made.result, Face::at1(3)?.or(&Face::ff())?);
    /// # Ok::<(), Refusal>(())
    /// ```
    pub fn substitute_face(
        &mut self,
        t: &(impl AsFace + ?Sized),
        k: u64,
        r: &(impl AsInterval + ?Sized),
    ) -> Result<Made<Face>, Refusal> {
        self.made(Face::made, |ledger, out| bytes::substitute_face(ledger, t.as_face(), k, r.as_interval(), out))
    }

    /// The interval t with the interval r for dimension k; dimensions above k are lowered by one, r stays as it is.
    /// Refused by 2, 3, 4, 5, 7.
    pub fn substitute_interval(
        &mut self,
        t: &(impl AsInterval + ?Sized),
        k: u64,
        r: &(impl AsInterval + ?Sized),
    ) -> Result<Made<Interval>, Refusal> {
        let (t, r) = (t.as_interval(), r.as_interval());
        self.made(Interval::made, |ledger, out| bytes::substitute_interval(ledger, t, k, r, out))
    }

    /// The step that the face a implies the face b over d: all their dimensions are below d, and every assignment that
    /// satisfies a satisfies b. Refused by 2, 3, 4, 7, by 8 where a dimension is not below d, by 9 where a does not
    /// imply b.
    pub fn entails(&mut self, d: u64, a: &(impl AsFace + ?Sized), b: &(impl AsFace + ?Sized)) -> Result<Step, Refusal> {
        step_of(bytes::entails(&mut self.0, d, a.as_face(), b.as_face()))
    }

    /// The step of a claim: [`entails`](Self::entails) with its d and faces. Refused by 7, 8, 9.
    pub fn ask(&mut self, claim: &Claim) -> Result<Step, Refusal> {
        self.entails(claim.d.into(), &claim.a, &claim.b)
    }

    /// A call with one result.
    fn made<T>(
        &mut self,
        of: impl Fn(&[u8]) -> T,
        call: impl Fn(&mut [u8], &mut [u8]) -> i64,
    ) -> Result<Made<T>, Refusal> {
        let mut out = [0; MAX_FORMULA_BYTES];
        let (step, length) = made_of(call(&mut self.0, &mut out))?;
        Ok(Made { step, result: of(&out[..length]) })
    }
}

impl AsRef<[u8]> for Ledger {
    fn as_ref(&self) -> &[u8] {
        &self.0
    }
}

impl From<Ledger> for Vec<u8> {
    fn from(ledger: Ledger) -> Self {
        ledger.0
    }
}

impl TryFrom<Vec<u8>> for Ledger {
    type Error = Refusal;

    fn try_from(bytes: Vec<u8>) -> Result<Self, Refusal> {
        Self::from_bytes(bytes)
    }
}

impl TryFrom<&[u8]> for Ledger {
    type Error = Refusal;

    fn try_from(bytes: &[u8]) -> Result<Self, Refusal> {
        Self::from_bytes(bytes)
    }
}

impl<'a> IntoIterator for &'a Ledger {
    type Item = Record<'a>;
    type IntoIter = Steps<'a>;

    fn into_iter(self) -> Steps<'a> {
        self.steps()
    }
}

/// How long it is and how many steps it has: a listing may be long.
impl fmt::Debug for Ledger {
    fn fmt(&self, f: &mut fmt::Formatter<'_>) -> fmt::Result {
        let mut shown = f.debug_struct("Ledger");
        shown
            .field("bytes", &self.0.len())
            .field("used", &self.used_bytes().len())
            .field("steps", &self.count())
            .finish()
    }
}
