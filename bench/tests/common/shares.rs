//! The share of an accelerator on a channel as the documents say it, with every sum taken anew.
use razhikum::Channel;
use razhikum_bench::peer::read::{Port, Tree};

/// How a share is found: as the documents have it, or by a rule that is wrong.
#[derive(Clone, Copy, Debug, PartialEq)]
pub enum Sharing {
    AsWritten,
    /// The whole phi counts, whatever the job, as before document 02's item 5.
    WholePhi,
    /// The other channel's job is looked at.
    OtherChannel,
    /// A job that is empty on both channels alone counts 0.
    JobOfEither,
    /// 0 is counted on the accelerator's own port, but not beneath an interconnect.
    OnOwnPort,
    /// 0 is counted beneath an interconnect, but not on the accelerator's own port.
    OnlyBeneath,
    /// An accelerator without a job on the channel has the share 1 there.
    OneWithoutJob,
    /// A lower interconnect's granularity makes the capacity of its port smaller.
    CutBelow,
}

fn has_job(tree: &Tree, channel: Channel, a: u8, sharing: Sharing) -> bool {
    let job = &tree.accelerators[a as usize];
    let (here, there) = match channel {
        Channel::Read => (job.reads, job.writes),
        Channel::Write => (job.writes, job.reads),
    };
    match sharing {
        Sharing::WholePhi => true,
        Sharing::OtherChannel => there > 0,
        Sharing::JobOfEither => here > 0 || there > 0,
        _ => here > 0,
    }
}

fn capacity(tree: &Tree, channel: Channel, port: Port, beneath: bool, sharing: Sharing) -> u64 {
    let ignored = if beneath { Sharing::OnOwnPort } else { Sharing::OnlyBeneath };
    match port {
        Port::Empty => 0,
        Port::Acc(a) if has_job(tree, channel, a, sharing) || sharing == ignored => {
            tree.accelerators[a as usize].phi.into()
        }
        Port::Acc(_) => 0,
        Port::Int(j) => {
            let at = &tree.interconnects[j as usize];
            let of = |&port: &Port| {
                let all = capacity(tree, channel, port, true, sharing);
                if sharing == Sharing::CutBelow {
                    all.min(at.granularity.into())
                } else {
                    all
                }
            };
            at.ports.iter().map(of).sum()
        }
    }
}

/// "The product of 1 + D over the interconnects of its path."
pub fn share(tree: &Tree, channel: Channel, a: u8, sharing: Sharing) -> u64 {
    if sharing == Sharing::OneWithoutJob && !has_job(tree, channel, a, sharing) {
        return 1;
    }
    let accelerator = &tree.accelerators[a as usize];
    let (mut interconnect, mut port) = (accelerator.interconnect, accelerator.port);
    let mut share = 1;
    loop {
        let at = &tree.interconnects[interconnect as usize];
        let others = (0..8).filter(|&other| other != port).map(|other| at.ports[other as usize]);
        let d: u64 =
            others.map(|other| capacity(tree, channel, other, false, sharing).min(at.granularity.into())).sum();
        share *= 1 + d;
        if interconnect == 0 {
            return share;
        }
        (interconnect, port) = (at.parent, at.port);
    }
}
