//! Protections, defaults, overlays and locks.

use super::*;

impl Protector {
    pub fn change_vtl_protections(&mut self, args: &[&str], run: Run) -> Parsed<String> {
        let [vtl, flags, pages] = exactly(args)?;
        let (vtl, flags) = (parse::number(vtl)?, parse::number(flags)?);
        let list = list(pages)?;
        self.call(run, Kind::Indexed, |lent| {
            raw::change_vtl_protections(lent, vtl, flags, &list)
        })
    }

    pub fn change_default_vtl_protections(&mut self, args: &[&str], run: Run) -> Parsed<String> {
        let [vtl, flags] = exactly(args)?;
        let (vtl, flags) = (parse::number(vtl)?, parse::number(flags)?);
        self.call(run, Kind::Plain, |lent| {
            raw::change_default_vtl_protections(lent, vtl, flags)
        })
    }

    pub fn register_overlay_page(&mut self, args: &[&str], run: Run) -> Parsed<String> {
        let [vtl, page, source, checked, new] = exactly(args)?;
        let (vtl, page) = (parse::number(vtl)?, parse::number(page)?);
        let source = named(source, &[("guest", 0), ("dma", 1)])?;
        let checked = parse::number(checked)?;
        let new = new_flags(new)?;
        self.call(run, Kind::Plain, |lent| {
            raw::register_overlay_page(lent, vtl, page, source, checked, new)
        })
    }

    pub fn unregister_overlay_page(&mut self, args: &[&str], run: Run) -> Parsed<String> {
        let [vtl, page] = exactly(args)?;
        let (vtl, page) = (parse::number(vtl)?, parse::number(page)?);
        self.call(run, Kind::Plain, |lent| {
            raw::unregister_overlay_page(lent, vtl, page)
        })
    }

    pub fn lock_gpns(&mut self, args: &[&str], run: Run) -> Parsed<String> {
        let [vtl, pages] = exactly(args)?;
        let (vtl, list) = (parse::number(vtl)?, list(pages)?);
        self.call(run, Kind::Plain, |Lent { state, tables, .. }| {
            raw::lock_gpns(state, tables, vtl, &list)
        })
    }

    pub fn unlock_gpns(&mut self, args: &[&str], run: Run) -> Parsed<String> {
        let [vtl, pages] = exactly(args)?;
        let (vtl, list) = (parse::number(vtl)?, list(pages)?);
        self.call(run, Kind::Plain, |Lent { state, tables, .. }| {
            raw::unlock_gpns(state, tables, vtl, &list)
        })
    }

    pub fn set_vtl1_protections_enabled(&mut self, args: &[&str], run: Run) -> Parsed<String> {
        let [] = exactly(args)?;
        self.call(run, Kind::Plain, |lent| {
            raw::set_vtl1_protections_enabled(lent.state)
        })
    }

    pub fn is_overlay_page(&mut self, args: &[&str], run: Run) -> Parsed<String> {
        let [vtl, page] = exactly(args)?;
        let (vtl, page) = (parse::number(vtl)?, parse::number(page)?);
        self.look(run, |Lent { state, tables, .. }| {
            raw::is_overlay_page(state, tables, vtl, page)
        })
    }

    pub fn vtl1_protections_enabled(&mut self, args: &[&str], run: Run) -> Parsed<String> {
        let [] = exactly(args)?;
        self.look(run, |lent| raw::vtl1_protections_enabled(lent.state))
    }

    pub fn default_vtl0_protections(&mut self, args: &[&str], run: Run) -> Parsed<String> {
        let [] = exactly(args)?;
        self.look(run, |lent| raw::default_vtl0_protections(lent.state))
    }

    fn look(&mut self, run: Run, entry: impl FnOnce(Lent<'_>) -> Value) -> Parsed<String> {
        let mut lends = run.lends;
        let given = entry(self.built()?.lent(&mut lends));
        valued(given, |value| value.to_string())
    }

    pub fn tables(&mut self, args: &[&str]) -> Parsed<String> {
        let [] = exactly(args)?;
        let Built { state, tables, .. } = self.built()?;
        let enabled = state[place::ENABLED];
        let default0 = state[place::DEFAULT0];
        let default1 = match state[place::DEFAULT1] {
            flags @ 0..=15 => flags.to_string(),
            _ => "-".to_string(),
        };
        let [overlays0, overlays1] = table::OVERLAYS.map(|place| overlays(&tables[place..]));
        let [locks0, locks1] = table::LOCKS.map(|place| locks(&tables[place..]));
        plain(&format!(
            "ok enabled={enabled} default0={default0} default1={default1} overlays0=[{overlays0}] \
             overlays1=[{overlays1}] locks0=[{locks0}] locks1=[{locks1}]"
        ))
    }
}

/// FLAGS, or `.` for none.
fn new_flags(word: &str) -> Parsed<u64> {
    match word {
        "." => Ok(raw::NO_FLAGS),
        _ => match parse::number(word)? {
            raw::NO_FLAGS => bad("no flags are written ."),
            flags => Ok(flags),
        },
    }
}

/// `PAGE:PREV:OWN:COUNT:guest|dma,..`
fn overlays(words: &[u64]) -> String {
    let entries = words[1..].chunks_exact(5).take(words[0] as usize);
    let shown = entries.map(|entry| {
        let source = if entry[4] == 0 { "guest" } else { "dma" };
        format!("{}:{source}", show::joined(&entry[..4], ":"))
    });
    show::joined(shown, ",")
}

/// `(P,P)(P)..`
fn locks(words: &[u64]) -> String {
    let pages = &words[table::FIRST_PAGE..];
    let mut from = 0;
    let shown = words[1..].iter().take(words[0] as usize).map(|&to| {
        let pages = &pages[from..to as usize];
        from = to as usize;
        format!("({})", show::joined(pages, ","))
    });
    show::joined(shown, "")
}

/// `permissions snp VTL FLAGS`: the operand that a protection change hands over.
pub fn permissions(args: &[&str]) -> Parsed<String> {
    let ["snp", vtl, flags] = exactly(args)? else {
        return bad("permissions are of snp here");
    };
    let (vtl, flags) = (parse::number(vtl)?, parse::number(flags)?);
    let mut built = Built::new([1, 1, 0, 0, 0, 0]);
    let mut lends = Lends::default();
    raw::build(&[0, 32_768, 0], 2, 0, 0, built.lent(&mut lends));
    let reply = raw::change_vtl_protections(built.lent(&mut lends), vtl, flags, &[0; 8]);
    plain(&match reply.number {
        0 => format!("ok operand={}", reply.operand),
        number => format!("refused {number}"),
    })
}
