//! Order 14's lists as pairs of scripts: its first two runs, those of its wrong machines, and some of the same kind.

use crate::isolation_acts::{all_met, moments};
use crate::isolation_cases::judge_pairs;
use crate::isolation_pairs::Pair;
use crate::isolation_seen::Script;
use crate::judge::Tally;
use reference::notation::{receiver_call, session_item};
use reference::script::Op;

const ID: &[u8] = b"m";

/// Items in the notation of the page. What is in parentheses stands in the first script only.
#[rustfmt::skip]
const LISTS: [&str; 37] = [
    // The first two runs of the page, the second one's feed that is refused with 10 and its drop that is with 12 among them.
    "(send k) | ([allow k]) | send m | (finish k) | [allow m] | ([done]) | file m a | (file m a) | ([drop z]) | [done] | \
     end m a abc | [done]",
    // Its table, row by row.
    "(send k) | send m | [allow m] | finish m | ([drop k]) | [done]",
    "(send k) | ([allow k]) | send m | [allow m] | finish m | [done]",
    "send m | (cancel mm) | [allow m]",
    "send m | (send b) | (send c) | (send d) | (send e) | [allow m]",
    "(send b) | (send c) | (send d) | send m | [allow m]",
    "(send k) | send m | (cancel k) | [allow m]",
    "(send k) | send m | [allow m] | file m a | [done]",
    "(send k q=2) | send m | [allow m]",
    "(send k) | send m | ([allow k]) | [allow m]",
    "(send k) | ([allow k]) | (file k a) | ([done]) | (data k a abc) | ([done]) | send m | [allow m] | file m a | \
     [done] | data m a abc | [done]",
    "(send k) | send m | [allow m] | file m a | [done] | data m a abc | [done]",
    "(send k) | send m | [allow m] | file m a | [done]",
    "(receive k) | receive m | (path k a) | path m a | ([allow k]) | [allow m] | ([home k /k]) | [list m a 7 /nz] | \
     [home m /h] | path m b | [last z]",
    "(send k) | receive m | path m a | [allow m] | [home m /h] | path m 1 | [part xy] | [last z]",
    // A full table of each kind, more than full, and its places used again.
    "(receive b) | (receive c) | (receive d) | send m | (send e) | (receive f) | [allow m] | file m a | [done]",
    "send m | [allow m] | (receive b) | (receive c) | (receive d) | (send e) | file m a | ([drop c]) | [done] | \
     (send e) | end m a x | [done]",
    "(send k q=2) | ([allow k]) | (file k a) | ([done]) | (cancel k) | send m | [allow m] | file m a | [done]",
    "(receive k) | (path k a) | ([drop k]) | receive m | path m a | [allow m]",
    // Other ids that are the start of the session's, or begin with it.
    "send m | (send mm) | ([allow mm]) | [allow m] | (finish mm) | ([done]) | finish m | [done]",
    "(send M) | (cancel M) | send m | (send M) | ([deny M]) | [allow m]",
    // What is refused is nobody's, the session's own calls too.
    "send m | ([short allow m]) | ([home m /h]) | ([done]) | ([last x]) | [allow m] | ([allow m]) | ([deny m]) | \
     finish m | ([unlisted]) | ([short done]) | [failed EIO]",
    "receive m | ([allow m]) | ([list m a 7 /nz]) | path m a | ([home m /h]) | [allow m] | ([short home m /h]) | \
     ([list m a! 7 /x]) | [nolist m a ENOENT] | [home m /h] | ([home m /h]) | path m 1 | ([done]) | ([part {x*4097}]) | \
     [part x] | [unlisted]",
    "send m | (^[]5113;ac=cancel;id=m;q=3^[\\) | (^[]5113;ac=cancel;id=m;id=m^[\\) | (^[]5113;ac=cancel;id=m^[x) | \
     (^[]0;ac=cancel;id=m^[\\) | [allow m]",
    // Others are answered, listed and dropped while the session is asked for, owes or lists.
    "(send k) | (receive l) | (path l a) | send m | [allow m] | file m a | ([allow k]) | ([allow l]) | \
     ([list l a 7 /nz]) | ([home l /h]) | [done] | ([drop l]) | end m a | ([drop k]) | [done]",
    "(send k) | ([allow k]) | receive m | path m a | (finish k) | [allow m] | [list m a 7 /nz] | [home m /h] | ([done]) | \
     path m 1 | [last z]",
    "(send k) | ([allow k]) | (file k a) | ([done]) | send m | [allow m] | finish m | [done]",
    "(send k q=2) | receive m | path m a | [allow m] | [home m /h] | path m 1 | [unlisted]",
    "(send k q=2) | (cancel k) | receive m | path m a | [allow m] | [nolist m a EIO] | [home m /h] | path m 1 | \
     [part xy] | [failed EIO]",
    // The session ends and begins again, in another place.
    "(send b) | send m | ([drop b]) | (send c) | cancel m | (send b) | send m | [allow m] | file m a | [done]",
    "(send b) | send m | [deny m] | (send c) | (send d) | receive m | path m a | [allow m] | [drop m] | send m",
    // A text of drag and drop brings no act of any session, whatever stands in it, however it ends.
    "send m | (^[]72;t=a;x^[\\) | [allow m] | (^[]72;ac=cancel;id=m^[\\) | file m a | (^[]72;t=a^[\\) | [done] | \
     (^[]72;t=a^[x) | end m a abc | [done] | (^[]72;5113;ac=cancel;id=m^[\\) | finish m | [done]",
    "(^[]72;t=a^[\\) | send m | (^[]72;{y*8190}^[\\) | [allow m] | (^[]72;) | (x^[) | (x) | file m a | [done] | (^[]7) | (2;x^[\\) | \
     data m a abc | [done]",
    "receive m | (^[]72;t=a^[\\) | path m a | (^[]72;id=m^[\\) | [allow m] | [list m a 7 /nz] | (^[]72;t=r;QQ==^[\\) | \
     [home m /h] | path m 1 | (^[]72;t=a^[\\) | [part xy] | [last z]",
    "(send k) | send m | (^[]72;t=a^[\\) | ([allow k]) | (finish k) | (^[]72;t=a^[\\) | [allow m] | ([done]) | file m a | [done]",
    // The premise fails.
    "(send b) | (send c) | (send d) | (send e) | send m",
    "(send b) | (send c) | (send d) | (send e) | receive m",
];

/// Judges them all.
pub fn judge(tally: &mut Tally) {
    judge_pairs(tally, &pairs());
}

pub fn pairs() -> Vec<Pair> {
    LISTS.iter().enumerate().map(|(i, list)| pair(&format!("special-{i}"), list)).collect()
}

fn pair(name: &str, list: &str) -> Pair {
    let scripts = [script(list, true), script(list, false)];
    let met = scripts.iter().all(|script| all_met(&script.moments, ID));
    Pair { name: name.into(), id: ID.into(), scripts, met }
}

fn ops(item: &str) -> Vec<Op> {
    match item.strip_prefix('[').and_then(|item| item.strip_suffix(']')) {
        Some(call) => receiver_call(call),
        None => vec![Op::Feed(session_item(item))],
    }
}

/// The operations of a list, and a look at the session behind each act of it.
fn script(list: &str, whole: bool) -> Script {
    let items = list.split(" | ").filter_map(|item| {
        match item.strip_prefix('(').and_then(|item| item.strip_suffix(')')) {
            Some(item) => whole.then_some(item),
            None => Some(item),
        }
    });
    let calls: Vec<Op> = [Op::Anew].into_iter().chain(items.flat_map(ops)).collect();
    let mut all = Vec::new();
    for (op, moment) in calls.iter().zip(moments(ID, &calls)) {
        all.push(op.clone());
        if moment.act.is_some() {
            all.push(Op::Numbers(ID.into()));
        }
    }
    Script::new(ID, all)
}

#[cfg(test)]
mod tests {
    use super::*;
    use crate::isolation_seen::difference;
    use crate::judge::RECEIVER;

    /// The acts are the same in each pair. Where the premise holds the session sees the same, and where it fails it does not: the premise
    /// is not idle.
    #[test]
    fn the_pairs_are_pairs() {
        let pairs = pairs();
        for pair in &pairs {
            assert!(pair.same_acts(), "{}", pair.name);
            assert!(pair.scripts[0].ops.len() > pair.scripts[1].ops.len(), "{}", pair.name);
            let outputs = pair.cases().map(|case| RECEIVER.expected(&case.input));
            let [one, other] = pair.seen([&outputs[0], &outputs[1]]);
            assert_eq!(difference(&one, &other).is_none(), pair.met, "{}", pair.name);
        }
        assert_eq!(pairs.iter().filter(|pair| !pair.met).count(), 2);
    }

    /// What m sees in the page's first pair, written out.
    #[test]
    fn the_first_pair_of_the_page() {
        let pair = &pairs()[0];
        let outputs = pair.cases().map(|case| RECEIVER.expected(&case.input));
        let [one, _] = pair.seen([&outputs[0], &outputs[1]]);
        let words: Vec<&str> = one.iter().map(|line| line.rsplit_once(' ').unwrap().0).collect();
        #[rustfmt::skip]
        assert_eq!(words, [
            "f 0 asked", "y 0", "a 0 none", "y 0", "f 0 open", "y 0",
            "k 0 status:STARTED", "y 1", "f 0 last:3:abc", "y 1", "k 0 status:OK", "y 0",
        ]);
    }
}
