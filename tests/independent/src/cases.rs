//! Listings made by hand: the paper's points and refusals, and the edges of every rule.

use crate::table::{Refusal, BYTES};

pub const CASE_A: &str = "cpus 2\ntask 10 2.5 10\nuse 1 1 0.5 0.5\ntask 20 4 15\ntask 30 6 30\nuse 1 2 0.75 1.5\n";

/// Task 4's O, F and L are each 1, one share from each of three tasks: lock 1 is used above and below it, but not by it. S is 1 by lock 2.
/// Lock 3 has ceiling 4, so that what task 5 holds of it is in task 4's DB alone.
pub const THIRDS: &str = "cpus 3
task 10 0.001 1
use 1 1 0.001 0.001
task 10 0.001 1
task 10 0.001 1
use 2 1 0.001 0.001
task 10 0.005 1
use 2 1 0.001 0.001
use 3 2 0.001 0.002
task 10 0.004 1
use 1 1 0.001 0.001
use 3 1 0.003 0.003
";

/// Case A from a tracer: every time has four to six decimals, and rounded it is case A's.
pub const TRACED: &str = "cpus 2
task 10.0009 2.4999 10.000001
use 1 1 0.499001 0.4995
task 20.000999 3.99999 15.00001
task 30.0000 5.999999 30.0001
use 1 2 0.74901 1.5000
";

/// Rounded, task 1's D is its C, and task 2 meets at 11.
pub const ROUNDED: &str = "cpus 1\ntask 0.011 0.009 0.009198\ntask 0.011 0.002 0.011\n";

/// The same a thousand times longer, so that nothing is rounded: task 1's D is above its C, and task 2 misses. So the safe side is that of
/// each figure, not of the verdicts.
pub const AS_TYPED: &str = "cpus 1\ntask 11 9 9.198\ntask 11 2 11\n";

/// Request 3/12, where the cap decides: what task 1 runs, F, is longer than the bound of task 3. These and the next ones were searched for, as
/// the smallest that tell a wrong program apart.
pub const LONG_ABOVE: &str = "cpus 2\ntask 0.005 0.004 0.005\ntask 0.003 0.001 0.001\ntask 0.003 0.001 0.003\n";

/// The same of task 2, with room for three answers: by the cap, by one of t + 1, and by none.
pub const LONGER_ABOVE: &str = "cpus 2\ntask 0.004 0.001 0.001\ntask 0.008 0.006 0.008\ntask 0.004 0.001 0.004\n";

/// The same where task 2 runs under a lock, O.
pub const LONG_LOCK_ABOVE: &str = "cpus 2
task 0.003 0.001 0.001
task 0.005 0.004 0.005
use 1 2 0.002 0.004
task 0.003 0.001 0.003
";

/// The same below task 3, L.
pub const LONG_LOCK_BELOW: &str = "cpus 2
task 0.004 0.001 0.001
task 0.004 0.001 0.001
use 1 1 0.001 0.001
task 0.004 0.001 0.004
task 0.006 0.005 0.006
use 1 2 0.003 0.005
";

/// The cap is each task's own: two that never let go leave nothing to task 3.
pub const TWO_ABOVE: &str = "cpus 2\ntask 0.001 0.001 0.001\ntask 0.001 0.001 0.001\ntask 0.002 0.001 0.002\n";

/// It is each workload's own: task 2's O and F, together above t, count both.
pub const O_AND_F: &str = "cpus 2
task 0.003 0.001 0.001
task 0.002 0.002 0.002
use 1 1 0.001 0.001
task 0.003 0.001 0.003
";

/// The same of its S and F.
pub const S_AND_F: &str = "cpus 2
task 0.005 0.001 0.001
task 0.004 0.003 0.003
use 1 1 0.001 0.001
task 0.005 0.001 0.005
use 1 1 0.001 0.001
";

/// Without a cap on S, which is what task 1 runs under the lock that task 2 uses too, no verdict is another; but task 2 takes a round less.
pub const LONG_SHARED_ABOVE: &str = "cpus 1
task 0.003 0.002 0.003
use 1 2 0.001 0.002
task 0.002 0.001 0.002
use 1 1 0.001 0.001
";

/// The story of request 3/12, which `story` finds: task 2's code gets shorter.
pub const STORY: [&str; 2] = [include_str!("../../../examples/before-shortening.txt"), include_str!("../../../examples/shortened.txt")];

/// The pair of request 6/12, which `easier` finds: task 1's period gets shorter, and task 2 takes two rounds in place of three.
pub const EASIER: [&str; 2] = ["cpus 1\ntask 4 1 3\ntask 4 2 4\n", "cpus 1\ntask 3 1 3\ntask 4 2 4\n"];

/// The pair of request 7/12, which `falls` finds: task 1 holds its lock for longer and runs no longer, and task 2's bound falls.
pub const FALLS: [&str; 2] = [include_str!("../../../examples/holding.txt"), include_str!("../../../examples/holding-longer.txt")];

/// The same in microseconds, by rounding alone: as typed, task 1's C and CT get longer by as much; as read, CT alone does.
pub const FALLS_AS_READ: [&str; 2] = [
    "cpus 1\ntask 0.003 0.0015 0.002\nuse 1 2 0.001 0.001\ntask 0.005 0.001 0.005\n",
    "cpus 1\ntask 0.003 0.0016 0.002\nuse 1 2 0.001 0.0011\ntask 0.005 0.001 0.005\n",
];

/// Where a printed bound does not hold, since a task that it reads misses: task 3's backlog makes task 4 late.
pub const BACKLOG: &str = "cpus 2\ntask 6 3 3\ntask 6 3 3\ntask 3 2 2\ntask 30 1 30\n";

/// The same of task 3, with the backlog of task 4, below it.
pub const BACKLOG_BELOW: &str = include_str!("../../../examples/backlog-below.txt");

/// The same of task 2, in the short form, with the backlog of task 1.
pub const BACKLOG_ABOVE: &str = include_str!("../../../examples/backlog-above.txt");

/// All meet, and task 1's bound does not hold where locks have FIFO queues.
pub const QUEUED: &str = "cpus 2
task 20 1 20
use 1 1 1 1
task 20 2 20
use 1 1 2 2
task 20 2 20
use 1 1 2 2
";

/// All meet, and task 2's bound does not hold where the holder of a lock inherits by the letter of the report's section II.
pub const TO_THE_LETTER: &str = "cpus 2
task 60 1 60
use 1 1 1 1
task 60 1 60
use 2 1 1 1
task 60 10 60
task 60 2 60
use 2 1 2 2
task 60 10 60
use 1 1 10 10
";

/// All meet, and task 1's bound does not hold without inheritance.
pub const UNINHERITED: &str = "cpus 1\ntask 20 1 20\nuse 1 1 1 1\ntask 20 5 20\ntask 20 2 20\nuse 1 1 2 2\n";

/// The same on two processors: all meet, and task 2's bound does not hold where task 1 spins while it waits.
pub const SPINNING: &str = "cpus 2\ntask 20 1 20\nuse 1 1 1 1\ntask 20 5 20\ntask 20 2 20\nuse 1 1 2 2\n";

/// The first demand that is worked out ends it: that of task 1 repeats, and that of task 2 passes its D.
pub const ONE_ROUND: &str = "cpus 1\ntask 0.001 0.001 0.001\ntask 0.001 0.001 0.001\n";

/// The point of request 8/12: task 1's A and N are 2, and the lower values are 300, 700 and 400. Task 2 waits by its second lock alone, for the one
/// value of task 3; task 3 is the lowest.
pub const WAITING: &str = "cpus 2
task 10 1 10
alpha 2
use 1 2 0.1 0.2
task 10 1 10
alpha 2
use 2 1 0.3 0.3
use 3 1 0.7 0.7
task 10 1 10
alpha 2
use 2 1 0.4 0.4
";

/// Lower values that are equal, on one lock and on several, of one task and of two; and larger ones on a lock that the task uses itself. So what counts is
/// seen in the waits, 12,100 and 9,300.
pub const EQUAL_VALUES: &str = "cpus 1
task 100 10 100
alpha 3
use 1 2 1 1
use 2 3 1 1
task 100 10 100
alpha 2
use 1 4 0.5 2
use 3 1 0.7 0.7
use 4 1 0.8 0.8
task 100 10 100
alpha 1
use 1 1 0.9 0.9
use 2 1 0.7 0.7
use 4 2 0.8 1.5
";

/// Task 1 has a lock that nobody else uses, task 2 has none, and task 3 is the lowest.
pub const NO_LOCKS: &str = "cpus 1\ntask 10 1 10\nalpha 1\nuse 1 3 0.1 0.1\ntask 10 1 10\nalpha 1\ntask 10 1 10\nalpha 1\nuse 2 1 0.5 0.5\nuse 3 1 0.5 0.5\n";

/// Lines about alpha, from the second on, with the refusal of the last line, or 0 if they are accepted; of 17 the place is 0.
pub const ALPHA: &[(u32, &[&str])] = &[
    // right after its task line, from 1 to 64, in any spelling of a count
    (0, &[
        "task 10 5 10\nalpha 1",
        "task 10 5 10\nalpha 64",
        "task 10 5 10\nalpha 0064",
        "task 10 5 10\nalpha 064",
        "task 10 5 10\nalpha 0001",
        "task 10 5 10\nalpha 2\nuse 1 1 1 1\nuse 2 1 1 1",
    ]),
    // never rising
    (0, &[
        "task 10 5 10\nalpha 2\ntask 10 5 10\nalpha 2",
        "task 10 5 10\nalpha 2\ntask 10 5 10\nalpha 0002",
        "task 10 5 10\nalpha 64\ntask 10 5 10\nalpha 1",
        "task 10 5 10\nalpha 3\nuse 1 1 1 1\ntask 10 5 10\nalpha 2\nuse 1 1 1 1\ntask 10 5 10\nalpha 1\nuse 1 1 1 1",
    ]),
    // a wrong number of fields, an empty one, another word
    (2, &[
        "task 10 5 10\nalpha",
        "task 10 5 10\nalpha 1 1",
        "task 10 5 10\nalpha 1 1 1",
        "task 10 5 10\nalpha 1 1 1 1",
        "task 10 5 10\nalpha ",
        "task 10 5 10\nalpha  1",
        "task 10 5 10\nalpha 1 ",
        "task 10 5 10\n alpha 1",
        "task 10 5 10\nalpha\t1",
        "task 10 5 10\nalpha1",
        "task 10 5 10\nAlpha 1",
        "task 10 5 10\nalph 1",
        "task 10 5 10\nalphas 1",
    ]),
    // not right after a task line: a second one, one after a use, one before any task
    (2, &[
        "task 10 5 10\nalpha 1\nalpha 1",
        "task 10 5 10\nuse 1 1 1 1\nalpha 1",
        "task 10 5 10\nalpha 1\nuse 1 1 1 1\nalpha 1",
        "task 10 5 10\nalpha 1\nuse 1 1 1 1\nuse 2 1 1 1\nalpha 1",
        "task 10 5 10\nalpha 1\ntask 10 5 10\nuse 1 1 1 1\nalpha 1",
        "alpha 1",
    ]),
    // 2 comes before 3, 4 and 18
    (2, &[
        "task 10 5 10\nalpha x 1",
        "task 10 5 10\nalpha 0 0",
        "task 10 5 10\nalpha 1\nalpha x",
        "task 10 5 10\nalpha 1\nalpha 65",
        "task 10 5 10\nalpha 1\nalpha 2",
        "task 10 5 10\nuse 1 1 1 1\nalpha 00064",
        "task 10 5 10\nuse 1 1 1 1\nalpha 0",
        "task 10 5 10\nalpha 1\ntask 10 5 10\nuse 1 1 1 1\nalpha 2",
        "alpha x",
        "alpha 0",
    ]),
    // no count; also where 4 or 18 would come after
    (3, &[
        "task 10 5 10\nalpha x",
        "task 10 5 10\nalpha 1x",
        "task 10 5 10\nalpha -1",
        "task 10 5 10\nalpha +1",
        "task 10 5 10\nalpha 1.0",
        "task 10 5 10\nalpha 2.",
        "task 10 5 10\nalpha 1\r",
        "task 10 5 10\nalpha 00064",
        "task 10 5 10\nalpha 00001",
        "task 10 5 10\nalpha 00000",
        "task 10 5 10\nalpha 10000",
        "task 10 5 10\nalpha 4294967297",
        "task 10 5 10\nalpha 1\ntask 10 5 10\nalpha 00002",
    ]),
    // out of range; also where 18 would come after. A byte would read 256 as 0, and 257 as 1
    (4, &[
        "task 10 5 10\nalpha 0",
        "task 10 5 10\nalpha 0000",
        "task 10 5 10\nalpha 65",
        "task 10 5 10\nalpha 0065",
        "task 10 5 10\nalpha 200",
        "task 10 5 10\nalpha 256",
        "task 10 5 10\nalpha 257",
        "task 10 5 10\nalpha 9999",
        "task 10 5 10\nalpha 1\ntask 10 5 10\nalpha 65",
        "task 10 5 10\nalpha 1\ntask 10 5 10\nalpha 0",
        "task 10 5 10\ntask 10 5 10\nalpha 65",
    ]),
    // above that of the task before
    (18, &[
        "task 10 5 10\nalpha 1\ntask 10 5 10\nalpha 2",
        "task 10 5 10\nalpha 63\ntask 10 5 10\nalpha 64",
        "task 10 5 10\nalpha 9\ntask 10 5 10\nalpha 0010",
        "task 10 5 10\nalpha 1\nuse 1 1 1 1\ntask 10 5 10\nalpha 64",
        "task 10 5 10\nalpha 3\ntask 10 5 10\nalpha 2\ntask 10 5 10\nalpha 3",
        "task 10 5 10\nalpha 3\ntask 10 5 10\nalpha 3\ntask 10 5 10\nalpha 4",
    ]),
    // above that of the last task before that has one, so that 17 is never reached
    (18, &[
        "task 10 5 10\nalpha 2\ntask 10 5 10\ntask 10 5 10\nalpha 3",
        "task 10 5 10\nalpha 2\ntask 10 5 10\nuse 1 1 1 1\ntask 10 5 10\ntask 10 5 10\nalpha 3",
        "task 10 5 10\nalpha 2\ntask 10 5 10\ntask 10 5 10\nalpha 1\ntask 10 5 10\nalpha 2",
        "task 10 5 10\ntask 10 5 10\nalpha 2\ntask 10 5 10\nalpha 3",
    ]),
    // for some tasks only
    (17, &[
        "task 10 5 10\nalpha 2\ntask 10 5 10",
        "task 10 5 10\ntask 10 5 10\nalpha 2",
        "task 10 5 10\nalpha 2\ntask 10 5 10\ntask 10 5 10\nalpha 2",
        "task 10 5 10\nalpha 2\ntask 10 5 10\ntask 10 5 10\nalpha 1",
        "task 10 5 10\ntask 10 5 10\nalpha 2\ntask 10 5 10",
        "task 10 5 10\nalpha 2\nuse 1 1 1 1\ntask 10 5 10\nuse 1 1 1 1\nuse 2 1 1 1",
    ]),
    // 17 comes at the end: the last line's own refusal is before it
    (2, &["task 10 5 10\nalpha 2\ntask 10 5 10\n", "task 10 5 10\nalpha 2\ntask 10 5 10\nalpha"]),
    (3, &["task 10 5 10\nalpha 2\ntask 10 5 10\nuse 1 x 1 1"]),
    (4, &["task 10 5 10\nalpha 2\ntask 10 5 10\nuse 17 1 1 1", "task 10 5 10\nalpha 2\ntask 10 5 10\ntask 0 5 10"]),
    (5, &["task 10 5 10\nalpha 2\ntask 10 11 10"]),
    (6, &["task 10 5 10\nalpha 2\ntask 10 5 10\nuse 1 1 1 1\nuse 1 1 1 1"]),
    (7, &["task 10 5 10\nalpha 2\ntask 10 5 10\nuse 1 1 6 6"]),
];

/// Request 9/12: group 2 is resources 1 and 3, and resource 2, which is in none, stands by itself. Resource 16, which nobody uses, is in a group too.
pub const TOGETHER: &str = "cpus 2
group 2 1
group 2 3
group 9 16
task 40 9 40
use 1 1 2 2
use 2 1 1 1
use 3 2 1 2
task 40 9 40
use 1 2 1.5 3
use 2 3 0.5 1.5
use 4 1 0.7 0.7
";

/// Two listings whose groups make a bound larger. In the first the tasks share nothing without them. In the second task 2, which uses no lock, has to do with
/// task 3's only by the group, which task 1 uses too.
pub const COARSER: [&str; 2] = [
    "cpus 1\ngroup 1 1\ngroup 1 2\ntask 10 1 10\nuse 1 1 1 1\ntask 10 2 10\nuse 2 1 2 2\n",
    "cpus 1\ngroup 1 1\ngroup 1 2\ntask 10 1 10\nuse 1 1 1 1\ntask 10 1 10\ntask 10 2 10\nuse 2 1 2 2\n",
];

/// Two whose groups make one bound larger, task 1's, and another one smaller, the last task's. The first is the one that the search finds.
pub const COARSER_AND_SMALLER: [&str; 2] = [
    "cpus 1\ngroup 1 1\ngroup 1 2\ntask 5 2 4\nuse 1 1 1 1\nuse 2 1 1 1\ntask 5 1 5\nuse 1 1 1 1\n",
    "cpus 2\ngroup 1 1\ngroup 1 2\ntask 6 2 4\nuse 1 1 1 1\nuse 2 1 1 1\ntask 4 1 4\ntask 5 1 5\nuse 1 1 1 1\n",
];

/// One whose groups make one bound smaller, task 2's, and none larger.
pub const SMALLER: &str = "cpus 1
group 1 1
group 1 2
task 8 2 8
use 1 1 1 1
use 2 1 1 1
task 13 1 13
use 1 1 1 1
task 10 2 10
use 1 1 1 1
use 2 1 1 1
";

/// What a group presumes: that it is held in one go no longer than the longest of its requests as typed. Task 2 does not let it go between its two locks, and
/// task 1's bound does not hold.
pub const OVERLAPPING: &str = "cpus 2\ngroup 1 1\ngroup 1 2\ntask 10 1 10\nuse 1 1 1 1\ntask 20 4 20\nuse 1 1 2 2\nuse 2 1 2 2\n";

/// The same typed as it is held: from the first lock's start to the second's end.
pub const OVERLAPPING_TYPED: &str = "cpus 2\ngroup 1 1\ngroup 1 2\ntask 10 1 10\nuse 1 1 1 1\ntask 20 4 20\nuse 1 1 3 3\nuse 2 1 1 1\n";

/// Group 2 is resources 1 and 3, and resource 2 is in none: who merges them in another way prints other bounds or other waits. It was searched for.
pub const MERGED: &str = "cpus 1
group 2 1
group 2 3
task 20 2 20
alpha 2
use 3 1 1 1
task 20 1 20
alpha 2
use 2 1 1 1
task 20 4 20
alpha 2
use 1 1 1 1
use 3 1 2 2
task 20 1 20
alpha 2
use 1 1 1 1
";

/// Lines about groups, from the second on, with the refusal of the last line, or 0 if they are accepted; of 17 the place is 0.
pub const GROUPS: &[(u32, &[&str])] = &[
    // after `cpus` and before any task, both numbers from 1 to 16, in any spelling of a count
    (0, &[
        "group 1 1\ntask 10 5 10",
        "group 16 16\ntask 10 5 10",
        "group 0016 016\ntask 10 5 10",
        "group 01 0001\ntask 10 5 10",
        "group 1 16\ntask 10 5 10\nuse 1 1 1 1",
        "group 1 1\ntask 10 5 10\nalpha 2\nuse 1 1 1 1\nuse 2 1 1 1",
        "group 2 1\ngroup 2 3\ntask 10 5 10\nuse 1 1 1 1\nuse 2 1 1 1\nuse 3 1 1 1\ntask 10 5 10\nuse 1 1 1 1\nuse 2 1 1 1\nuse 3 1 1 1",
    ]),
    // K rising; G may rise, fall and come again
    (0, &[
        "group 1 1\ngroup 1 2\ntask 10 5 10",
        "group 5 1\ngroup 4 2\ngroup 5 16\ntask 10 5 10",
        "group 1 9\ngroup 1 0010\ntask 10 5 10",
        "group 16 1\ngroup 1 16\ntask 10 5 10",
    ]),
    // a wrong number of fields, an empty one, another word
    (2, &[
        "group",
        "group 1",
        "group 1 1 1",
        "group 1 1 1 1",
        "group ",
        "group 1 ",
        "group  1 1",
        "group 1  1",
        "group 1 1 ",
        " group 1 1",
        "group\t1 1",
        "group1 1",
        "Group 1 1",
        "grou 1 1",
        "groups 1 1",
        "group 1 1\n",
    ]),
    // after a task line, be it at once or later
    (2, &[
        "task 10 5 10\ngroup 1 1",
        "task 10 5 10\nuse 1 1 1 1\ngroup 1 1",
        "task 10 5 10\nalpha 1\ngroup 1 1",
        "group 1 1\ntask 10 5 10\ngroup 1 2",
        "group 1 1\ntask 10 5 10\nuse 1 1 1 1\ngroup 1 2",
    ]),
    // groups do not take the place of a task
    (2, &["group 1 1\nuse 1 1 1 1", "group 1 1\nalpha 1", "group 1 1\ncpus 2", "cpus 2"]),
    // 2 comes before 3, 4 and 19
    (2, &[
        "group x 1 1",
        "group 0 0 0",
        "group 1 2\ngroup 1 1 1",
        "task 10 5 10\ngroup x 1",
        "task 10 5 10\ngroup 17 17",
        "group 1 2\ntask 10 5 10\ngroup 1 1",
        "task 10 5 10\ngroup 0 0",
    ]),
    // no count; also where 4 or 19 would come after
    (3, &[
        "group x 1",
        "group 1 x",
        "group 1x 1",
        "group -1 1",
        "group 1 +1",
        "group 1.0 1",
        "group 1 1.",
        "group 1 1\r",
        "group 00001 1",
        "group 1 00001",
        "group 10000 1",
        "group 1 4294967297",
        "group 0 x",
        "group 17 x",
        "group x 17",
        "group 1 2\ngroup 1 00001",
        "group 1 2\ngroup x 2",
        "group 1 2\ngroup x 1",
    ]),
    // out of range; also where 19 would come after. A byte would read 256 as 0, and 257 as 1
    (4, &[
        "group 0 1",
        "group 1 0",
        "group 0 0",
        "group 0000 1",
        "group 17 1",
        "group 1 17",
        "group 0017 1",
        "group 17 17",
        "group 256 1",
        "group 257 1",
        "group 1 256",
        "group 1 257",
        "group 9999 9999",
        "group 1 1\ngroup 1 0",
        "group 1 2\ngroup 17 1",
        "group 1 2\ngroup 0 2",
        "group 1 16\ngroup 1 17",
    ]),
    // K not above that of the group line before: equal, or falling, whatever G is
    (19, &[
        "group 1 1\ngroup 1 1",
        "group 1 1\ngroup 2 1",
        "group 1 1\ngroup 2 0001",
        "group 2 16\ngroup 1 16",
        "group 1 2\ngroup 1 1",
        "group 1 2\ngroup 3 1",
        "group 1 10\ngroup 1 9",
        "group 1 16\ngroup 2 1",
        "group 1 1\ngroup 1 3\ngroup 1 2",
        "group 1 1\ngroup 1 2\ngroup 1 1",
    ]),
    // the lines after them get their own
    (3, &["group 1 1\ntask 10 x 10"]),
    (4, &["group 1 1\ntask 10 0 10", "group 1 1\ntask 10 5 10\nuse 17 1 1 1"]),
    (5, &["group 1 1\ntask 10 11 10"]),
    (6, &["group 1 1\ngroup 1 2\ntask 10 5 10\nuse 2 1 1 1\nuse 1 1 1 1", "group 1 1\ngroup 1 2\ntask 10 5 10\nuse 1 1 1 1\nuse 1 1 1 1"]),
    // of the pairs as typed: merged, the first two would do
    (7, &[
        "group 1 1\ngroup 1 2\ntask 10 5 10\nuse 1 2 1 1\nuse 2 1 0.2 0.1",
        "group 1 1\ngroup 1 2\ntask 10 5 10\nuse 1 2 1 1\nuse 2 1 0.2 0.3",
        "group 1 1\ngroup 1 2\ntask 10 5 10\nuse 1 2 1 0.9",
        "group 1 1\ngroup 1 2\ntask 10 5 10\nuse 1 1 1 1.1",
        "group 1 1\ngroup 1 2\ntask 10 5 10\nuse 1 1 3 3\nuse 2 1 2.1 2.1",
    ]),
    (17, &["group 1 1\ntask 10 5 10\nalpha 2\ntask 10 5 10"]),
    (18, &["group 1 1\ntask 10 5 10\nalpha 2\ntask 10 5 10\nalpha 3"]),
];

/// Times, and what they are in microseconds: rounded down, rounded up.
pub const SPELLED: &[(&str, u64, u64)] = &[
    // three decimals or fewer: the same either way
    ("2", 2_000, 2_000),
    ("2.5", 2_500, 2_500),
    ("2.05", 2_050, 2_050),
    ("2.005", 2_005, 2_005),
    ("2.500", 2_500, 2_500),
    // zeros after these change nothing
    ("2.5000", 2_500, 2_500),
    ("2.50000", 2_500, 2_500),
    ("2.500000", 2_500, 2_500),
    ("00002.005000", 2_005, 2_005),
    // each digit counts in its place
    ("2.5001", 2_500, 2_501),
    ("2.50001", 2_500, 2_501),
    ("2.500001", 2_500, 2_501),
    ("2.5009", 2_500, 2_501),
    ("2.500999", 2_500, 2_501),
    ("1.234567", 1_234, 1_235),
    ("2.00005", 2_000, 2_001),
    // up to the next millisecond, or not
    ("0.9995", 999, 1_000),
    ("0.999001", 999, 1_000),
    ("9.999999", 9_999, 10_000),
    ("0.9989", 998, 999),
    // about the least time
    ("0.0000", 0, 0),
    ("0.000000", 0, 0),
    ("0.000001", 0, 1),
    ("0.0009", 0, 1),
    ("0.000999", 0, 1),
    ("0.001", 1, 1),
    ("0.001000", 1, 1),
    ("0.001001", 1, 2),
    ("0.0019", 1, 2),
    ("0.002000", 2, 2),
    // about the longest
    ("9999.9989", 9_999_998, 9_999_999),
    ("9999.999000", 9_999_999, 9_999_999),
    ("9999.999001", 9_999_999, 10_000_000),
    ("9999.999999", 9_999_999, 10_000_000),
    ("10000.0000", 10_000_000, 10_000_000),
    ("10000.000000", 10_000_000, 10_000_000),
    ("10000.000001", 10_000_000, 10_000_001),
    ("10000.0009", 10_000_000, 10_000_001),
    ("10000.000999", 10_000_000, 10_000_001),
    ("10000.001", 10_000_001, 10_000_001),
    ("10000.001000", 10_000_001, 10_000_001),
    // the most that can be spelled
    ("99999.999000", 99_999_999, 99_999_999),
    ("99999.999999", 99_999_999, 100_000_000),
];

/// What is no time: seven decimals or more, be they zeros, and what was none before.
pub const MISSPELLED: &[&str] = &[
    "2.0000001", "2.5000000", "2.5000001", "2.50000000000000000000", "0.0000001", "0.0009999", "0.0010001", "0.0010000", "9999.9999999", "10000.0000000",
    "10000.0000001", "10000.0009999", "99999.9999999", "2.", ".5", ".", ".500000", "100000", "100000.000001", "2.5000.", "2.500.000", "2..5000", "2.5000x",
    "2.50000x", "2.-50000", "2.+50000", "2,500000", "+2.500000",
];

/// Times beside each other, as lines from the second on, with the refusal of the last line, or 0 if they are accepted.
pub const BESIDE: &[(u32, &[&str])] = &[
    // C not above D, nor D above T, as typed and as rounded
    (0, &[
        "task 2.5000 2.5000 2.5000",
        "task 2.500000 2.50000 2.5000",
        "task 10 2.0000 2.0009",
        "task 10 1.999001 2.0009",
        "task 10 2.0001 2.001",
        "task 0.001999 0.000001 0.001999",
        "task 10000.000999 9999.999001 10000.000999",
    ]),
    // D above T as typed alone
    (0, &["task 10.0001 1 10.0009", "task 10 1 10.000001", "task 10 1 10.000999"]),
    // C above D as rounded alone
    (5, &[
        "task 10 2.0001 2.0009",
        "task 10 2.000001 2.000999",
        "task 10 2.0001 2.0001",
        "task 2.5001 2.5001 2.5001",
        "task 10000 9999.999001 9999.999999",
    ]),
    // D above T either way
    (5, &["task 10.0009 1 10.001", "task 10.000999 1 10.0010"]),
    // 4 comes before 5, and 3 before both
    (4, &[
        "task 0.0009 0.000001 0.0009",
        "task 0.001 0.000001 0.0009",
        "task 0.0009 0.001 0.001",
        "task 10000.000999 10000.000001 10000.000999",
        "task 1 10000.000001 2",
        "task 10000.001 2.0001 2.0009",
        "task 99999.999999 99999.999999 99999.999999",
    ]),
    (3, &["task 99999.999999 99999.999999 99999.9999999", "task 10 2.0001 2.00000001", "task 0 0 2."]),
    // c not above CT, nor CT above N times c, as typed and as rounded
    (0, &[
        "task 10 5 10\nuse 1 1 0.5001 0.5001",
        "task 10 5 10\nuse 1 2 0.5001 1.0002",
        "task 10 5 10\nuse 1 1 2.5000 2.5000",
        "task 10 0.000001 10\nuse 1 1000 0.000001 0.000001",
    ]),
    // one of them above as typed alone
    (0, &[
        "task 10 5 10\nuse 1 1 0.5001 0.500001",
        "task 10 5 10\nuse 1 1 0.500001 0.5001",
        "task 10 5 10\nuse 1 1 0.5001 0.501",
        "task 10 5 10\nuse 1 2 0.5001 1.002",
        "task 10 5 10\nuse 1 1000 0.000001 1",
        "task 10 5 10\nuse 1 1000 0.000001 0.999001",
    ]),
    // one of them above either way
    (7, &[
        "task 10 5 10\nuse 1 1 0.5001 0.5",
        "task 10 5 10\nuse 1 1 0.5001 0.5000",
        "task 10 5 10\nuse 1 1 0.5 0.5001",
        "task 10 5 10\nuse 1 1 0.500999 0.501001",
        "task 10 5 10\nuse 1 2 0.5 1.0001",
        "task 10 5 10\nuse 1 2 0.5001 1.002001",
        "task 10 5 10\nuse 1 1000 0.000001 1.000001",
    ]),
    // the CT are rounded one by one, and so is C: their sum not above it, above it as typed alone, as rounded alone, either way
    (0, &[
        "task 10 1 10\nuse 1 1 0.5001 0.5001\nuse 2 1 0.499 0.499",
        "task 10 1 10\nuse 1 1 0.5001 0.5001\nuse 2 1 0.498001 0.498001",
        "task 10 1.000001 10\nuse 1 1 0.5001 0.5001\nuse 2 1 0.4999 0.4999",
    ]),
    (0, &["task 10 0.9999 10\nuse 1 1 1 1", "task 10 1.000001 10\nuse 1 1 0.5009 0.5009\nuse 2 1 0.500000 0.500000"]),
    (7, &[
        "task 10 1 10\nuse 1 1 0.5001 0.5001\nuse 2 1 0.4999 0.4999",
        "task 10 1 10\nuse 1 1 0.5001 0.5001\nuse 2 1 0.499001 0.499001",
        "task 10 1.000999 10\nuse 1 1 0.5001 0.5001\nuse 2 1 0.500001 0.500001",
    ]),
    (7, &["task 10 1 10\nuse 1 1 1.000001 1.000001"]),
    // 3 comes before all, 4 before 6, and 6 before 7
    (3, &["task 10 1 10\nuse 1 1 0.5 0.5\nuse 0 1 0.2001 0.2000001"]),
    (4, &[
        "task 10 1 10\nuse 1 1 10000.000001 0.5",
        "task 10 1 10\nuse 1 1 0.5001 10000.000001",
        "task 10 1 10\nuse 1 1 0.5 0.5\nuse 1 1 0.2001 10000.0001",
        "task 10 1 10\nuse 1 1 99999.999999 99999.999999",
    ]),
    (6, &["task 10 1 10\nuse 1 1 0.5 0.5\nuse 1 1 0.2001 0.2"]),
    // a count has no decimals
    (3, &[
        "task 10 1 10\nuse 1.0000 1 0.5 0.5",
        "task 10 1 10\nuse 1 1.0000 0.5 0.5",
        "task 10 1 10\nuse 1 1.000000 0.5 0.5",
        "task 10 1 10\nuse 1.0000000 1 0.5 0.5",
        "task 10 1 10\nuse 0.9999 0.9999 0.5 0.5",
    ]),
    // c in a bound: task 1 waits for it
    (0, &["task 10 1 10\nuse 1 1 0.5 0.5\ntask 10 1 10\nuse 1 1 0.2001 0.2001"]),
];

/// A task with these `use` lines after it, on lines 3 and on.
fn with_uses(uses: &str) -> String {
    format!("cpus 2\ntask 10 5 10\n{uses}")
}

pub fn tasks(n: usize) -> String {
    format!("cpus 4\n{}", "task 100 0.1 100\n".repeat(n))
}

/// Every pair in use: a task with sixteen locks, 32 times.
fn every_pair(task: &str, lock: &str) -> String {
    let uses: String = (1..=16).map(|k| format!("use {k:04} 1000 {lock}\n")).collect();
    format!("cpus 0004\n{}", format!("task {task}\n{uses}").repeat(32))
}

/// Each field as long as it can be spelled with three decimals. The benchmark keeps to it, so that its figures can be compared with earlier ones.
fn largest() -> String {
    every_pair("10000.000 00016.000 10000.000", "00000.001 00000.999")
}

/// The same with alpha, 64 for every task: as many lower pairs count as can.
fn largest_with_alpha() -> String {
    with_alpha(&largest(), 64)
}

/// Each field as long as it can be spelled: the longest listing that is accepted. Its groups make one resource of all, with 16,000 requests of each task.
pub fn longest() -> String {
    let groups: String = (1..=16).map(|k| format!("group 0016 {k:04}\n")).collect();
    with_lines(&every_pair("10000.000000 00016.000000 10000.000000\nalpha 0064", "00000.000001 00000.999999"), &groups)
}

/// Request 6/12: what task 1 runs makes task 2's length climb by one a round, from a C of 1. Task 1 lets go just before task 2's deadline, which
/// so is its bound, and takes all D - C + 1 rounds that there can be.
pub fn steps(rounds: u64) -> String {
    format!("cpus 1\ntask {0} {1} {1}\ntask {0} 0.001 {0}\n", ms(rounds), ms(rounds - 1))
}

/// The same with a task 1 that never lets go: task 2 misses after as many rounds.
pub fn no_end(rounds: u64) -> String {
    format!("cpus 1\ntask {0} {0} {0}\ntask {0} 0.001 {0}\n", ms(rounds))
}

/// One task above that never lets go makes the demand of the one below climb by one a round.
fn slow() -> String {
    "cpus 1\ntask 10000 10000 10000\ntask 10000 0.001 10000\n".into()
}

/// The lengths of the last 13 tasks climb by one to four a round, with some forty workloads in it. Those above hardly ever let go, each as O and as F,
/// and the one after them does for a unit every 160 ms: together they leave the processors ever so little room. The brief ones bring two parts of
/// a unit each, and a second job at about the time when that room would end the climb.
/// The benchmark alone compares these tables: the iteration takes this program seconds, and the paper's terms at every round would take minutes.
fn climbing(above: &str, brief: &str) -> String {
    ["cpus 19\n", above, "task 160 159.999 159.999\n", brief, &"task 10000 0.001 10000\n".repeat(13)].concat()
}

const NEVER_IDLE: &str = "task 10000 10000 10000\nuse 1 1000 5 5000\n";

/// Tasks of 2 microseconds with long periods: what follows the period in the line, and the lock.
fn brief(how_many: u64, figures: &str) -> String {
    (0..how_many).map(|j| format!("task {} {figures}", 5_900 + 320 * j)).collect()
}

/// The slowest table that was found while each round was worked out: 87 million rounds, with 3.7 thousand million workloads. Nearly all its rounds
/// are taken in strides.
fn long_climb() -> String {
    climbing(&NEVER_IDLE.repeat(9), &brief(9, "0.002 0.002\nuse 1 1 0.001 0.001\n"))
}

/// About the slowest table that is known: the same, with tasks of 3 and 2 microseconds in place of one of those above, and a brief one less. These begin
/// a job every microsecond or two, so that there is hardly a stride.
fn short_periods() -> String {
    let tiny = "task 0.003 0.003 0.003\nuse 1 1 0.001 0.001\ntask 0.002 0.002 0.002\nuse 1 1 0.001 0.001\n";
    climbing(&(NEVER_IDLE.repeat(8) + tiny), &brief(8, "0.002 0.002\nuse 1 1 0.001 0.001\n"))
}

/// Every task meets, after 32 million rounds in all: those above let go in the end, and share their locks with nobody.
fn slow_meets() -> String {
    let above: String = (1..=9).map(|k| format!("task 10000 9900 9900\nuse {k} 1000 4.95 4950\n")).collect();
    climbing(&above, &brief(9, "0.002 0.020\nuse 10 1 0.001 0.001\n"))
}

/// About the slowest table that was found with no period under a millisecond. Those above never let go, and each is split by its lock: so a load begins
/// or ends every ten microseconds or so, at ever other places, since no two periods are the same.
fn from_1_ms() -> String {
    let above = |period: u64| format!("task {0} {0} {0}\nuse 1 1 0.001 0.001\n", ms(period));
    let above: String = (1_001..=1_018).map(above).collect();
    ["cpus 19\n", &above, "task 120 119.999 119.999\nuse 1 1 0.001 0.001\n", &"task 10000 0.001 10000\n".repeat(13)].concat()
}

pub fn listings() -> Vec<Vec<u8>> {
    let mut all: Vec<Vec<u8>> = [
        CASE_A,
        &CASE_A.replace("30 6 30", "30 6 14.5"),
        &CASE_A.replace("30 6 30", "30 6 14.499"),
        THIRDS,
        &THIRDS.replace("10 0.005 1", "10 0.005 0.013"),
        &THIRDS.replace("10 0.005 1", "10 0.005 0.012"),
        // the listing itself
        "",
        "\n",
        "\n\n\n",
        " ",
        "cpus 2",
        "cpus 2\n",
        "cpus 2\n\n",
        "cpus 2\ntask 10 2.5 10",
        "cpus 2\r\ntask 10 2.5 10\r\n",
        "cpus 65\ntask 10 2.5 10",
        // order of lines
        "task 10 2.5 10\n",
        "task 10 2.5 10\ncpus 2\n",
        "cpus 2\ncpus 2\n",
        "cpus 2\ntask 10 2.5 10\ncpus 2\n",
        "cpus 2\nuse 1 1 1 1\n",
        "use 1 1 1 1\n",
        "CPUS 2\n",
        "cpu 2\n",
        "cpus 2\ntasks 10 2.5 10\n",
        "cpus 2\n task 10 2.5 10\n",
        "cpus 2\ntask  10 2.5 10\n",
        "cpus 2\ntask 10 2.5 10 \n",
        "cpus 2\ntask 10 2.5\n",
        "cpus 2\ntask 10 2.5 10 10\n",
        "cpus\t2\n",
        "cpus  2\n",
        "cpus 2 2\n",
        // fields
        "cpus 0\n",
        "cpus 64\n",
        "cpus 65\n",
        "cpus 0064\n",
        "cpus 00064\n",
        "cpus -1\n",
        "cpus 2.0\n",
        "cpus x\n",
        "cpus 2\ntask 2.5 2.5 2.5\n",
        "cpus 2\ntask 62.5 2.05 62.005\n",
        "cpus 2\ntask 10000 10000 10000\n",
        "cpus 2\ntask 10000.001 1 1\n",
        "cpus 2\ntask 10000.000 0.001 0.001\n",
        "cpus 2\ntask 0 1 1\n",
        "cpus 2\ntask 1 0 1\n",
        "cpus 2\ntask 1 1 0.000\n",
        "cpus 2\ntask 2. 1 1\n",
        "cpus 2\ntask .5 1 1\n",
        "cpus 2\ntask 2.5000 1 1\n",
        "cpus 2\ntask 2.5000000 1 1\n",
        "cpus 2\ntask 100000 1 1\n",
        "cpus 2\ntask 0 11 1x\n",
        "cpus 2\ntask 10 9 8\n",
        "cpus 2\ntask 10 9 11\n",
        "cpus 2\ntask 10 10 10\n",
        "cpus 2\ntask 0 9 11\n",
        "cpus 2\ntask 10 9 8\nuse 0 x\n",
        // N times c is past 32 bits, and its low half below CT
        "cpus 2\ntask 10000 10000 10000\nuse 1 1000 4294.968 4294.968\n",
    ]
    .iter()
    .map(|text| text.as_bytes().to_vec())
    .collect();
    for uses in [
        "use 1 1 5 5\n",
        "use 1 1 5 5.001\n",
        "use 1 1 5.001 5.001\n",
        "use 16 1000 0.001 1\n",
        "use 16 1000 0.001 1.001\n",
        "use 17 1 1 1\n",
        "use 0 1 1 1\n",
        "use 0 x 1 1\n",
        "use 17 1 9 9\n",
        "use 1 0 1 1\n",
        "use 1 1001 1 1\n",
        "use 1 1 0 1\n",
        "use 1 1 1 0\n",
        "use 1 2 1 0.999\n",
        "use 1 2 1 2\n",
        "use 1 2 1 2.001\n",
        "use 2 1 1 1\nuse 2 1 1 1\n",
        "use 2 1 1 1\nuse 1 1 1 1\n",
        "use 2 1 1 1\nuse 0 1 1 1\n",
        "use 2 1 1 1\nuse 1 1 9 9\n",
        "use 1 3 1 3\nuse 2 2 1 2\n",
        "use 1 3 1 3\nuse 2 3 1 2.001\n",
        "use 1 3 1 3\ntask 10 5 10\nuse 1 3 1 3\n",
        "use 1 1 1 1 1\n",
        "use 1 1 1\n",
    ] {
        all.push(with_uses(uses).into_bytes());
    }
    all.push(tasks(32).into_bytes());
    all.push(tasks(33).into_bytes());
    all.push((tasks(32) + "task 0 11 10\n").into_bytes());
    all.push((tasks(32) + "task 10 x 10\n").into_bytes());
    all.push((tasks(32) + "use 1 1 0.1 0.1\n").into_bytes());
    all.extend(decimals().into_iter().map(String::into_bytes));
    let capped = [LONG_ABOVE, LONGER_ABOVE, LONG_LOCK_ABOVE, LONG_LOCK_BELOW, TWO_ABOVE, O_AND_F, S_AND_F, LONG_SHARED_ABOVE, STORY[0], STORY[1]];
    all.extend(capped.map(|text| text.as_bytes().to_vec()));
    all.extend(rounds().into_iter().map(String::into_bytes));
    all.extend(longer().into_iter().map(String::into_bytes));
    all.extend([BACKLOG, BACKLOG_BELOW, BACKLOG_ABOVE, QUEUED, TO_THE_LETTER, UNINHERITED, SPINNING].map(|text| text.as_bytes().to_vec()));
    all.extend(alphas().into_iter().map(|(text, _)| text.into_bytes()));
    all.extend(waits().into_iter().map(|(text, _)| text.into_bytes()));
    let [coarser, smaller] = [COARSER, COARSER_AND_SMALLER];
    all.extend([&[TOGETHER, MERGED, SMALLER, OVERLAPPING, OVERLAPPING_TYPED][..], &coarser, &smaller].concat().iter().map(|text| text.as_bytes().to_vec()));
    all.extend(groups().into_iter().map(|(text, _)| text.into_bytes()));
    all.extend([largest(), largest_with_alpha(), full_with_groups(), longest()].map(String::into_bytes));
    // a miss, and a bound, in the very last round that `report` allows
    all.extend([slow(), steps(10_000_000)].map(String::into_bytes));
    for length in [BYTES - 1, BYTES, BYTES + 1, BYTES + 2, 2 * BYTES] {
        all.push(vec![b'\n'; length]);
        all.push(vec![b'x'; length]);
        all.push([CASE_A.as_bytes(), &vec![b' '; length - CASE_A.len()]].concat());
    }
    for byte in [0u8, 9, 13, 128, 255] {
        all.push([b"cpus 2\ntask 10 2.5 1".as_slice(), &[byte], b"\n"].concat());
        all.push([b"cpus 2\ntas".as_slice(), &[byte], b" 10 2.5 1\n"].concat());
    }
    all
}

/// Lines from the second on: each field of a task spelled so, beside what fits, and beside what comes just before and after it rounded. So
/// the microsecond that was read shows, in a bound or a refusal.
fn spelled(x: &str, down: u64, up: u64) -> Vec<String> {
    let mut all = vec![format!("task {x} 0.001 0.001"), format!("task 10000 {x} 10000"), format!("task 10000 0.001 {x}")];
    for other in [down.saturating_sub(1), down, down + 1].map(ms) {
        all.push(format!("task {x} 0.001 {other}"));
        all.push(format!("task {other} 0.001 {x}"));
        all.push(format!("task 10000 {other} {x}"));
    }
    for other in [up.saturating_sub(1), up, up + 1].map(ms) {
        all.push(format!("task 10000 {x} {other}"));
        all.push(format!("task 10000 {x} 10000\nuse 1 1 {other} {other}"));
        all.push(format!("task 10000 {other} 10000\nuse 1 1 {x} {x}"));
        all.push(format!("task 10000 10000 10000\nuse 1 1 {x} {other}"));
        all.push(format!("task 10000 10000 10000\nuse 1 1 {other} {x}"));
    }
    all
}

/// Lines from the second on: each field misspelled so, beside what fits, and beside what is out of range, which counts less.
pub fn misspelled(x: &str) -> Vec<String> {
    let task = ["{x} 0.001 0.001", "10000 {x} 10000", "10000 0.001 {x}", "{x} 0 0", "0 {x} 10000.001", "0.0009 10000.000001 {x}", "1 2 {x}"];
    let uses = ["1 1 {x} 1", "1 1 1 {x}", "17 1001 {x} 0", "0 0 10000.000001 {x}", "1 1 2 {x}"];
    let task = task.iter().map(|fields| format!("task {fields}"));
    let uses = uses.iter().map(|fields| format!("task 10 5 10\nuse {fields}"));
    task.chain(uses).map(|lines| lines.replace("{x}", x)).collect()
}

/// Times of four decimals and more, by themselves and beside each other.
fn decimals() -> Vec<String> {
    let mut lines: Vec<String> = BESIDE.iter().flat_map(|(_, all)| all.iter()).map(|lines| lines.to_string()).collect();
    // sixteen totals that fit one by one, and as typed all of them; the C that they need rounded, and a little less
    for c in ["0.9936", "1.007", "1.007001", "1.008", "1.008000"] {
        let uses: String = (1..=16).map(|k| format!("\nuse {k} 1 0.0621 0.0621")).collect();
        lines.push(format!("task 10 {c} 10{uses}"));
    }
    lines.extend(SPELLED.iter().flat_map(|&(x, down, up)| spelled(x, down, up)));
    lines.extend(MISSPELLED.iter().flat_map(|x| misspelled(x)));
    let mut all: Vec<String> = lines.iter().map(|lines| format!("cpus 2\n{lines}\n")).collect();
    all.extend([TRACED, ROUNDED, AS_TYPED].map(String::from));
    // a deadline in a verdict
    all.extend(["14.5000", "14.500999", "14.499999", "14.4999999"].map(|d| CASE_A.replace("30 6 30", &format!("30 6 {d}"))));
    all.extend(["2.0000", "2.000000", "2.0000001", "0.9999", "64.0001"].map(|m| CASE_A.replace("cpus 2", &format!("cpus {m}"))));
    // past the last task: 3 comes before 8, and 8 before 4
    all.extend(["10 2.5000001 10", "10 2.500001 10", "10000.001000 1 1", "10 10000.000001 10"].map(|fields| tasks(32) + &format!("task {fields}\n")));
    all.push("cpus 2\ntask 10 2.500001 10".into());
    all
}

/// Case A on one processor, which is harder: task 3's bound is larger, and takes fewer rounds.
pub fn one_processor() -> String {
    CASE_A.replace("cpus 2", "cpus 1")
}

/// Request 6/12: about as many rounds as `bench` allows, and harder tables that take fewer.
pub fn rounds() -> Vec<String> {
    let mut all = vec![CASE_A.into(), one_processor(), EASIER[0].into(), EASIER[1].into(), ONE_ROUND.into()];
    all.extend((2..=8).flat_map(|rounds| [steps(rounds), no_end(rounds)]));
    all
}

/// Case A, on however many processors, with a longer run time of task 2.
pub fn longer_run(case_a: &str) -> String {
    case_a.replace("20 4 15", "20 5 15")
}

/// The same with a shorter period too.
pub fn longer_run_more_often(case_a: &str) -> String {
    case_a.replace("20 4 15", "15 4.5 15")
}

/// Case A with other figures of task 1, and of its lock on line 3.
fn other_lock(task: &str, lock: &str) -> String {
    CASE_A.replace("10 2.5 10", task).replace("1 1 0.5 0.5", lock)
}

/// Case A with a longer run time of task 1, all of it under its lock: the one request that it makes gets longer, and with it the total.
pub fn longer_request() -> String {
    other_lock("10 3 10", "1 1 1 1")
}

/// The same by halves, which are refused: the longest request alone is above the total, and the total alone above the longest request.
pub fn half_longer_request() -> [String; 2] {
    [other_lock("10 2.5 10", "1 1 1 0.5"), other_lock("10 3 10", "1 1 0.5 1")]
}

/// Request 7/12: longer run times, by themselves and beside what makes a table harder; and the pair that has a bound fall.
fn longer() -> Vec<String> {
    let mut all = vec![longer_run(CASE_A), longer_run(&one_processor()), longer_run_more_often(&one_processor()), longer_request()];
    all.extend(half_longer_request());
    all.extend([FALLS, FALLS_AS_READ].concat().into_iter().map(String::from));
    all
}

/// The listing with the alpha of each task, counted from 0, after its line, if the task has one.
fn with_alphas(text: &str, alpha: impl Fn(usize) -> Option<u64>) -> String {
    let (mut lines, mut tasks) = (String::new(), 0);
    for line in text.lines() {
        lines.push_str(&format!("{line}\n"));
        if line.starts_with("task ") {
            lines.extend(alpha(tasks).map(|alpha| format!("alpha {alpha}\n")));
            tasks += 1;
        }
    }
    lines
}

/// The listing with the same alpha for all its tasks.
pub fn with_alpha(text: &str, alpha: u64) -> String {
    with_alphas(text, |_| Some(alpha))
}

/// The listing without the lines of alpha.
pub fn without_alpha(text: &str) -> String {
    text.lines().filter(|line| !line.starts_with("alpha ")).map(|line| format!("{line}\n")).collect()
}

/// Lines from the second on, as listings with the refusal that each gets, if any.
fn answered(all: &[(u32, &[&str])]) -> Vec<(String, Option<Refusal>)> {
    let each = all.iter().flat_map(|(number, all)| all.iter().map(move |lines| (*number, *lines)));
    let answer = |(number, lines): (u32, &str)| {
        let text = format!("cpus 2\n{lines}\n");
        let last = text.matches('\n').count() as u32;
        (text, if number == 0 { None } else { Some((number, if number == 17 { 0 } else { last })) })
    };
    each.map(answer).collect()
}

/// Request 8/12: listings with the refusal that each gets, if any.
pub fn alphas() -> Vec<(String, Option<Refusal>)> {
    let mut all = answered(ALPHA);
    all.push(("alpha 1\n".into(), Some((2, 1))));
    all.push(("alpha 1\ncpus 2\ntask 10 5 10\n".into(), Some((2, 1))));
    all.push(("cpus 2\nalpha 2\ntask 10 5 10\nalpha 2\n".into(), Some((2, 2))));
    all.push(("cpus 2\ntask 10 5 10\nalpha 2".into(), Some((2, 3))));
    all.push(("cpus 2\ntask 10 5 10\nalpha 2\ntask 10 5 10".into(), Some((2, 4))));
    // 32 tasks and one more
    all.push((with_alpha(&tasks(32), 64), None));
    all.push((with_alpha(&tasks(32), 1), None));
    all.push((with_alphas(&tasks(32), |i| Some(64 - i as u64)), None));
    all.push((with_alphas(&tasks(32), |i| Some(32 - i as u64)), None));
    all.push((with_alphas(&tasks(32), |i| (i < 31).then_some(5)), Some((17, 0))));
    all.push((with_alphas(&tasks(32), |i| (i > 0).then_some(5)), Some((17, 0))));
    all.push((with_alphas(&tasks(32), |i| (i == 31).then_some(5)), Some((17, 0))));
    all.push((with_alphas(&tasks(32), |i| Some(5 + i as u64 / 31)), Some((18, 65))));
    all.push((with_alphas(&tasks(32), |i| if i == 0 { Some(5) } else { (i == 31).then_some(6) }), Some((18, 35))));
    all.push((with_alphas(&tasks(33), |_| Some(5)), Some((8, 66))));
    all.push((with_alphas(&tasks(33), |i| (i < 32).then_some(5)), Some((8, 66))));
    all.push((with_alpha(CASE_A, 64), None));
    all
}

/// The lines that put resources 1 to 16 into these groups; 0 is none.
pub fn group_lines(groups: [u32; 16]) -> String {
    (1..).zip(groups).filter(|(_, group)| *group > 0).map(|(k, group)| format!("group {group} {k}\n")).collect()
}

/// The listing with these lines after the first.
pub fn with_lines(text: &str, lines: &str) -> String {
    let (cpus, rest) = text.split_once('\n').expect("a first line");
    format!("{cpus}\n{lines}{rest}")
}

/// The listing without the lines of groups.
pub fn without_groups(text: &str) -> String {
    text.lines().filter(|line| !line.starts_with("group ")).map(|line| format!("{line}\n")).collect()
}

/// Eight groups of two neighbours.
const EIGHT_OF_TWO: [u32; 16] = [1, 1, 2, 2, 3, 3, 4, 4, 5, 5, 6, 6, 7, 7, 8, 8];

/// Request 9/12: listings with the refusal that each gets, if any.
pub fn groups() -> Vec<(String, Option<Refusal>)> {
    let mut all = answered(GROUPS);
    // before `cpus`, and with nothing after it: place 2 is that of 9 whatever the last line is
    all.push(("group 1 1\n".into(), Some((2, 1))));
    all.push(("group 17 x\n".into(), Some((2, 1))));
    all.push(("group 1 1\ncpus 2\ntask 10 5 10\n".into(), Some((2, 1))));
    all.push(("cpus 2\ngroup 1 1".into(), Some((2, 2))));
    all.push(("cpus 2\ngroup 1 1\n".into(), Some((9, 2))));
    all.push(("cpus 2\ngroup 1 1\ngroup 1 2\ngroup 1 3\n".into(), Some((9, 2))));
    all.push((with_lines("cpus 2\n", &group_lines(EIGHT_OF_TWO)), Some((9, 2))));
    // every resource, and one more
    let every = [[1; 16], [16; 16], EIGHT_OF_TWO, std::array::from_fn(|k| k as u32 + 1), std::array::from_fn(|k| 16 - k as u32)];
    for lines in every.map(group_lines) {
        all.push((with_lines(CASE_A, &lines), None));
        all.push((with_lines(WAITING, &lines), None));
        all.push((with_lines(EQUAL_VALUES, &lines), None));
        all.push((with_lines(CASE_A, &format!("{lines}group 1 16\n")), Some((19, 18))));
        all.push((with_lines(CASE_A, &format!("{lines}group 1 17\n")), Some((4, 18))));
        all.push((format!("{}{lines}", tasks(1)), Some((2, 3))));
    }
    // 32 tasks and one more
    let grouped = |text: &str| with_lines(text, &group_lines(EIGHT_OF_TWO));
    all.push((grouped(&tasks(32)), None));
    all.push((grouped(&tasks(33)), Some((8, 50))));
    all.push((grouped(&with_alphas(&tasks(32), |i| (i < 31).then_some(5))), Some((17, 0))));
    all
}

/// Request 8/12: listings with the wait of each task.
pub fn waits() -> Vec<(String, Vec<u64>)> {
    let point = |alpha: &str| WAITING.replacen("alpha 2", alpha, 1);
    let equal = |alpha: &str| point(alpha).replace("0.4 0.4", "0.7 0.7");
    let cpus = |m: u64| WAITING.replace("cpus 2", &format!("cpus {m}"));
    let mut all = vec![
        (WAITING.into(), vec![2_200, 400, 0]),
        // all count, and more than there are
        (point("alpha 3"), vec![2_800, 400, 0]),
        (point("alpha 4"), vec![2_800, 400, 0]),
        (point("alpha 64"), vec![2_800, 400, 0]),
        // 300, 700 and 700: of the two that are equal one counts, or both
        (WAITING.replace("alpha 2", "alpha 1").replace("0.4 0.4", "0.7 0.7"), vec![1_400, 700, 0]),
        (equal("alpha 2"), vec![2_800, 700, 0]),
        (equal("alpha 3"), vec![3_400, 700, 0]),
        (EQUAL_VALUES.into(), vec![12_100, 9_300, 0]),
        (NO_LOCKS.into(), vec![1_500, 0, 0]),
        (with_alpha("cpus 1\ntask 10 1 10\nuse 1 1 1 1\n", 64), vec![0]),
        (with_alpha("cpus 1\ntask 10 1 10\ntask 10 1 10\n", 1), vec![0, 0]),
        (with_alpha(CASE_A, 1), vec![0, 0, 0]),
        (longest_wait(), [vec![4_650_000_000_000], vec![0; 31]].concat()),
    ];
    // how many processors there are makes no difference
    all.extend([1, 3, 64].map(|m| (cpus(m), vec![2_200, 400, 0])));
    all
}

/// No wait is longer: task 1 uses every lock a thousand times, and each of the others holds one and the same for ten seconds.
pub fn longest_wait() -> String {
    let uses: String = (1..=16).map(|k| format!("use {k} 1000 0.001 0.001\n")).collect();
    format!("cpus 1\ntask 10000 1 10000\nalpha 64\n{uses}{}", "task 10000 10000 10000\nalpha 64\nuse 1 1 10000 10000\n".repeat(31))
}

/// A full table: 32 tasks, 16 locks, half of the pairs in use, periods from 20 ms to 10 s.
fn full() -> String {
    let mut text = String::from("cpus 4\n");
    for i in 0..32u64 {
        let period = 20_000 + 321_900 * i;
        text.push_str(&format!("task {} {} {}\n", ms(period), ms(period / 14), ms(period)));
        for k in 0..16u64 {
            if (i + k) % 2 == 0 {
                text.push_str(&format!("use {} 3 {} {}\n", k + 1, ms(period / 1_000), ms(period / 500)));
            }
        }
    }
    text
}

/// The same with eight groups of two: of each group every task uses one, so that every task shares a lock with every other.
fn full_with_groups() -> String {
    with_lines(&full(), &group_lines(EIGHT_OF_TWO))
}

fn ms(us: u64) -> String {
    format!("{}.{:03}", us / 1000, us % 1000)
}

/// What the benchmark runs both programs on.
pub fn benchmark() -> [(&'static str, String); 9] {
    [
        ("full", full()),
        ("full-groups", full_with_groups()),
        ("largest", largest()),
        ("largest-alpha", largest_with_alpha()),
        ("slow", slow()),
        ("long-climb", long_climb()),
        ("slow-meets", slow_meets()),
        ("from-1-ms", from_1_ms()),
        ("short-periods", short_periods()),
    ]
}
