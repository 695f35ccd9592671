// The controller as the library's numbers, and the other way. sides.rs includes this with `plain` the reference, world.rs with `plain` either it or
// its peer.

/// The reference's controller as the library's numbers.
pub fn flat(c: &plain::Controller) -> ours::Controller {
    let (stage, word) = match c.exchange {
        plain::Exchange::Idle => (0, 0),
        plain::Exchange::Waiting(word) => (1, word),
        plain::Exchange::Done => (2, 0),
    };
    ours::Controller {
        exchange: ours::Exchange { stage, word },
        times: ours::Times { since: c.since, line: c.line_count, chosen: c.chosen, adopted: c.adopted },
        lines: ours::Lines { laa: c.laa as u16, rld: c.rld as u16, ls: c.ls as u16, slm: c.slm as u16 },
        counts: ours::Counts { fc: c.fc, ec: c.ec },
        group0: flat_group(&c.groups[0]),
        group1: flat_group(&c.groups[1]),
        device: ours::Device {
            address: c.device_address,
            set: c.status_word.is_some() as u16,
            status: c.status_word.unwrap_or(0),
        },
        phase: c.phase,
    }
}

fn flat_group(g: &plain::Group) -> ours::Group {
    ours::Group { pending: g.pending, mask: g.mask, status: g.status, frozen: g.frozen as u16 }
}

/// The library's numbers as the reference's controller, where they are one.
pub fn controller(f: &ours::Controller) -> Option<plain::Controller> {
    let flags = [
        f.lines.laa, f.lines.rld, f.lines.ls, f.lines.slm, f.group0.frozen, f.group1.frozen, f.device.set,
    ];
    let times = [32, 64, 96, 128];
    let right = f.exchange.stage <= 2
        && (f.exchange.stage == 1 || f.exchange.word == 0)
        && f.times.since <= 1950
        && f.times.line < 2130
        && times.contains(&f.times.chosen)
        && times.contains(&f.times.adopted)
        && flags.iter().all(|flag| *flag <= 1)
        && f.device.address <= 4095
        && f.phase < 1500
        && (f.device.set == 1 || f.device.status == 0)
        && (f.group1.pending | f.group1.mask | f.group1.status) & 0b0111_1000 == 0
        && [f.group0, f.group1].iter().all(|g| g.frozen == 1 || g.pending == 0);
    right.then(|| {
        let mut c = plain::Controller::fresh();
        c.exchange = match f.exchange.stage {
            0 => plain::Exchange::Idle,
            1 => plain::Exchange::Waiting(f.exchange.word),
            _ => plain::Exchange::Done,
        };
        (c.since, c.line_count, c.chosen, c.adopted) = (f.times.since, f.times.line, f.times.chosen, f.times.adopted);
        (c.laa, c.rld) = (f.lines.laa == 1, f.lines.rld == 1);
        (c.ls, c.slm) = (f.lines.ls == 1, f.lines.slm == 1);
        (c.fc, c.ec) = (f.counts.fc, f.counts.ec);
        for (group, numbers) in c.groups.iter_mut().zip([f.group0, f.group1]) {
            (group.pending, group.mask, group.status) = (numbers.pending, numbers.mask, numbers.status);
            group.frozen = numbers.frozen == 1;
        }
        c.device_address = f.device.address;
        c.status_word = (f.device.set == 1).then_some(f.device.status);
        c.phase = f.phase;
        c
    })
}
