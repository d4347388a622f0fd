//! Both tiers of the library side by side: on a copy of the store the checked function answers as the unchecked one and leaves
//! the same bytes.

use super::*;

/// xorshift64*.
struct Random(u64);

impl Random {
    fn below(&mut self, limit: u64) -> u64 {
        self.0 ^= self.0 >> 12;
        self.0 ^= self.0 << 25;
        self.0 ^= self.0 >> 27;
        (self.0.wrapping_mul(0x2545_f491_4f6c_dd1d) >> 32) % limit
    }
}

/// A call's answer: the reply's bytes, or the refusal.
type Answer = Result<[u8; REPLY_SIZE], Refusal>;

fn answer(result: Result<Reply, Refusal>) -> Answer {
    result.map(|reply| reply.0)
}

/// Runs a checked function with a reply, as `$function(.., reply, reply_len)`.
macro_rules! checked {
    ($function:ident($($argument:expr),* $(,)?)) => {{
        let mut reply = Reply::new();
        let (out, out_len) = (reply.0.as_mut_ptr(), reply.0.len());
        // SAFETY: areas; the checked functions take any bytes.
        let code = unsafe { $function($($argument,)* out, out_len) };
        answer(result(code, reply))
    }};
}

struct Both {
    store: Store,
    random: Random,
    number: u64,
}

impl Both {
    fn slot(&mut self) -> [u8; 52] {
        let mut slot = [0; 52];
        slot[19] = self.random.below(2) as u8;
        slot[51] = self.random.below(6) as u8;
        slot
    }

    fn hash(number: u64) -> [u8; 32] {
        [number as u8; 32]
    }

    /// One call by both tiers. Yields the call's number and whether it was accepted.
    fn step(&mut self) -> (u64, bool) {
        let mut copy = self.store.bytes().to_vec();
        let (s, s_len) = (copy.as_mut_ptr(), copy.len());
        let named = if self.random.below(12) == 0 { self.number + 1 } else { self.number };
        let hash = Self::hash(named);
        let at = Block { number: named, hash: &hash };
        let (h, h_len) = (hash.as_ptr(), hash.len());
        let slot = self.slot();
        let (k, k_len) = (slot.as_ptr(), slot.len());
        let value = [self.random.below(256) as u8; 32];
        let call = self.random.below(10);
        let (unchecked, checked) = match call {
            0 => (answer(self.store.look(at, &slot)), checked!(poxilme_look(s, s_len, named, h, h_len, k, k_len))),
            1 => (answer(self.store.get(at, &slot)), checked!(poxilme_get(s, s_len, named, h, h_len, k, k_len))),
            2 => (
                answer(self.store.put(at, &slot, &value)),
                checked!(poxilme_put(s, s_len, named, h, h_len, k, k_len, value.as_ptr(), value.len())),
            ),
            3 | 4 => (answer(self.store.read(at, &slot)), checked!(poxilme_read(s, s_len, named, h, h_len, k, k_len))),
            5 => {
                let (mut one, mut two) = ([7; 3328], [7; 3328]);
                let unchecked = answer(self.store.take(at, &mut one));
                let checked = checked!(poxilme_take(s, s_len, named, h, h_len, two.as_mut_ptr(), two.len()));
                assert_eq!(one, two);
                (unchecked, checked)
            }
            6 => {
                let flag = [u8::from(self.random.below(4) > 0)];
                let member = [&slot[..], &flag, &value].concat();
                let (m, m_len) = (member.as_ptr(), member.len());
                let unchecked = answer(self.store.answer(at, &member));
                (unchecked, checked!(poxilme_answer(s, s_len, named, h, h_len, m, m_len)))
            }
            7 => (
                answer(self.store.answer_failed(at, &slot)),
                checked!(poxilme_answer_failed(s, s_len, named, h, h_len, k, k_len)),
            ),
            8 => (answer(self.store.read_totals()), checked!(poxilme_read_totals(s, s_len))),
            _ => self.next_block(&mut copy, value),
        };
        assert_eq!(unchecked, checked, "call {call}");
        assert_eq!(self.store.bytes(), copy, "call {call}");
        assert!(is_store(self.store.bytes()));
        (call, unchecked.is_ok())
    }

    /// An advance to the next block, or now and then an install.
    fn next_block(&mut self, copy: &mut [u8], value: [u8; 32]) -> (Answer, Answer) {
        let (s, s_len) = (copy.as_mut_ptr(), copy.len());
        let child = self.number + 1;
        let hash = Self::hash(child);
        let at = Block { number: child, hash: &hash };
        let (h, h_len) = (hash.as_ptr(), hash.len());
        let results = if self.random.below(8) == 0 {
            (answer(self.store.install(at)), checked!(poxilme_install(s, s_len, child, h, h_len)))
        } else {
            let slots = [self.slot(), self.slot()];
            let writes: Vec<u8> = slots.iter().flat_map(|slot| [&slot[..], &value].concat()).collect();
            let addresses = [0; 20];
            let sibling = u64::from(self.random.below(6) == 0);
            let parent = Self::hash(self.number + sibling);
            let given = Prepared { parent_hash: &parent, skip: 0, addresses: &addresses, writes: &writes };
            let (mut one, mut two) = ([7; 104], [7; 104]);
            let mut work = vec![0; s_len];
            let unchecked = answer(self.store.advance(at, given, &mut one));
            let checked = checked!(poxilme_advance(
                s,
                s_len,
                child,
                h,
                h_len,
                parent.as_ptr(),
                parent.len(),
                0,
                addresses.as_ptr(),
                addresses.len(),
                writes.as_ptr(),
                writes.len(),
                work.as_mut_ptr(),
                work.len(),
                two.as_mut_ptr(),
                two.len(),
            ));
            assert_eq!(one, two);
            (unchecked, checked)
        };
        if results.0.is_ok() {
            self.number = child;
        }
        results
    }
}

#[test]
fn both_tiers_answer_alike() {
    let mut accepted = [0; 10];
    let mut refused = [0; 10];
    for seed in 1..=300 {
        let mut random = Random(seed);
        let (capacity, depth, idle) = (4 + random.below(12), random.below(4), random.below(4));
        let store = Store::open(capacity, depth, 1, idle).unwrap();
        let mut both = Both { store, random, number: 10 };
        for _ in 0..100 {
            let (call, ok) = both.step();
            if ok {
                accepted[call as usize] += 1
            } else {
                refused[call as usize] += 1
            }
        }
    }
    println!("accepted by call {accepted:?}, refused {refused:?}");
    assert!(accepted.iter().all(|count| *count > 100), "{accepted:?}");
    assert!(refused.iter().all(|count| *count > 10), "{refused:?}");
}

#[test]
fn open_and_install_of_any_bytes() {
    let mut bytes = [1; 7472];
    let (s, s_len) = (bytes.as_mut_ptr(), bytes.len());
    assert_eq!(checked!(poxilme_read_totals(s, s_len)), Err(Refusal::NotAStore));
    assert_eq!(checked!(poxilme_open(s, s_len, 2, 1, 0, 0)), Err(Refusal::AreaTooShort));
    assert_eq!(checked!(poxilme_open(s, s_len, 1, 256, 0, 0)), Err(Refusal::DepthLimitTooLarge));
    assert_eq!(checked!(poxilme_open(s, s_len, 0, 256, 2, 0)), Err(Refusal::UnknownForm));
    assert_eq!(bytes, [1; 7472]);
    let (s, s_len) = (bytes.as_mut_ptr(), bytes.len());
    assert!(checked!(poxilme_open(s, s_len, 1, 1, 1, 5)).is_ok());
    assert!(is_store(&bytes));
    assert_eq!(bytes, Store::open(1, 1, 1, 5).unwrap().bytes());
}

/// Arguments of a fixed size that are too short are refused by 9, and nothing is read or written.
#[test]
fn short_arguments() {
    let mut store = Store::open(4, 1, 0, 0).unwrap();
    store.install(Block { number: 10, hash: &[] }).ok().unwrap();
    let slot = [0; 52];
    for (hash_len, slot_len, reply_len) in [(31, 52, 96), (1, 52, 96), (0, 51, 96), (0, 0, 96), (0, 52, 95), (0, 52, 0)]
    {
        let mut copy = store.bytes().to_vec();
        let mut reply = [7; REPLY_SIZE];
        let hash = [0; 32];
        // SAFETY: areas, each no longer than its array.
        let code = unsafe {
            poxilme_read(
                copy.as_mut_ptr(),
                copy.len(),
                10,
                hash.as_ptr(),
                hash_len,
                slot.as_ptr(),
                slot_len,
                reply.as_mut_ptr(),
                reply_len,
            )
        };
        assert_eq!((code, reply), (9, [7; REPLY_SIZE]), "{hash_len} {slot_len} {reply_len}");
        assert_eq!(copy, store.bytes());
    }
}

/// An accepted call keeps the reply's bytes past its words.
#[test]
fn reply_past_its_words() {
    let mut store = Store::open(4, 1, 0, 0).unwrap().into_bytes();
    let mut reply = [7; 100];
    let (s, s_len) = (store.as_mut_ptr(), store.len());
    let (out, out_len) = (reply.as_mut_ptr(), reply.len());
    let hash: &[u8] = &[];
    // SAFETY: areas.
    let code = unsafe { poxilme_install(s, s_len, 10, hash.as_ptr(), 0, out, out_len) };
    assert_eq!((code, &reply[..8], &reply[8..]), (0, &[0, 0, 0, 0, 0, 0, 0, 1][..], &[7; 92][..]));
}
