//! Carry and overflow in and out, and the fill word where flags are left open.

use super::stage::*;
use crate::build::*;
use crate::job::Job;
use crate::tree::Instruction::*;
use crate::tree::*;

/// Neither, carry, overflow, both, alone and with all the other bits set.
const FLAGS: [u64; 8] = [0, 1, 2048, 2049, TOP - 2049, TOP - 2048, TOP - 1, TOP];

/// Sums that carry by the flag alone.
fn carries() -> Vec<Job> {
    let mut jobs = Vec::new();
    for flags in FLAGS {
        for sum in [Add64, AddCarry64, Adcx64, Adox64] {
            let by_flag = bare(ins(sum(reg(TARGET), number(0))));
            jobs.push(by_flag.reg(TARGET, TOP).flags(flags));
        }
    }
    jobs
}

fn fills() -> Vec<Job> {
    let own = compare(Relation::Ne, reg(TARGET), reg(TARGET));
    let nothing = || block(Vec::new());
    let (to, by) = (reg(TARGET), reg(SMALL));
    let work = [Sub64(to, by), IMul64(to, by), And64(to, by), Xor64(to, by)];
    let more = [Shr64(to, by), Shl64(to, by), Mul64(by), Paddd(1, 2)];
    let keep = [
        Mov64(to, by),
        AddLea64(to, by, by),
        Mulx64(to, to, by),
        Pxor(1, 2),
    ];
    let all = work.into_iter().chain(more).chain(keep);
    let mut codes: Vec<Code> = all.map(ins).collect();
    codes.push(if_else(own.clone(), nothing(), nothing()));
    codes.push(repeat(own, nothing()));
    let filled = |code: &Code| {
        let job = bare(code.clone()).reg(TARGET, TOP).reg(SMALL, 9).fuel(1);
        [job.clone().flags(0).fill(TOP), job.flags(TOP).fill(0)]
    };
    codes.iter().flat_map(filled).collect()
}

pub fn jobs() -> Vec<Job> {
    let mut jobs = carries();
    jobs.extend(fills());
    jobs
}
