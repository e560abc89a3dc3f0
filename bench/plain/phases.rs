// What holds of the requests that go one way over a link, from the end that asks to the end that serves (docs/REQUESTS.md): what both processes keep
// and what is between them is what a phase says. requests.rs takes this in.

use packet::Packet as Said;
use process::{Connect, Kept, Response, Wanted};

/// A packet with the ends that travel with it, between two processes.
struct Sent {
    packet: Said,
    ends: Vec<End>,
}

/// The packets of who asks.
fn is_asking(packet: &Said) -> bool {
    matches!(packet, Said::Request { .. } | Said::Enc { kind: 1, .. })
}

/// A request or a reply as it is compared.
type Told = (u32, Vec<u8>, u8, Vec<packet::Value>, Vec<End>);

fn told(deed: &Deed) -> Told {
    (deed.number, deed.signature.clone(), deed.status, deed.values.clone(), deed.ends.clone())
}

fn joined(first: &[End], second: &[End]) -> Vec<End> {
    first.iter().chain(second).copied().collect()
}

/// What a phase says: the request that is not accepted yet, and the reply that is not returned yet. Or which test fails.
type Phase = Result<(Option<Told>, Option<Told>), &'static str>;

/// One end: what is kept for it, if a process holds it, and whose process it is.
struct Side<'a> {
    kept: Option<(&'a Kept, &'a Lynx<'a>)>,
}

/// The requests of one way.
struct Talk<'a> {
    most: usize,
    asker: Side<'a>,
    server: Side<'a>,
    forth: Vec<&'a Sent>,
    back: Vec<&'a Sent>,
}

fn links_in(values: &[packet::Value]) -> usize {
    values.iter().filter(|value| matches!(value, packet::Value::Link)).count()
}

fn are_encs(packets: &[&Sent], kind: u8, number: u32, came: usize) -> bool {
    packets.iter().enumerate().all(|(at, sent)| {
        matches!(sent.packet, Said::Enc { kind: k, number: n, index } if k == kind && n == number && usize::from(index) == came + 1 + at)
            && sent.ends.len() == 1
    })
}

fn ends_of(packets: &[&Sent]) -> Vec<End> {
    packets.iter().flat_map(|sent| sent.ends.iter().copied()).collect()
}

impl Talk<'_> {
    fn outstanding(&self) -> Option<&Connect> {
        self.asker.kept.and_then(|(kept, _)| kept.outstanding.as_ref())
    }

    fn barred(&self) -> bool {
        self.asker.kept.is_some_and(|(kept, _)| kept.barred)
    }

    fn reply(&self) -> Option<&Response> {
        self.asker.kept.and_then(|(kept, _)| kept.reply.as_ref())
    }

    fn owed(&self) -> Option<u32> {
        self.server.kept.and_then(|(kept, _)| kept.owed)
    }

    fn forbade(&self) -> Option<&(u32, Vec<u8>)> {
        self.server.kept.and_then(|(kept, _)| kept.forbade.as_ref())
    }

    fn request(&self) -> Option<&Wanted> {
        self.server.kept.and_then(|(kept, _)| kept.request.as_ref())
    }

    /// The outstanding request, with these ends.
    fn request_with(&self, ends: Vec<End>) -> Told {
        let (_, process) = self.asker.kept.expect("it is held");
        let c = self.outstanding().expect("it is outstanding");
        (c.number, process.signature_of(c).to_vec(), 0, c.values.clone(), ends)
    }

    fn is_free(&self) -> bool {
        self.owed().is_none() && self.forbade().is_none() && self.request().is_none()
    }

    /// The request that was issued and is not accepted yet, and the reply that was made and is not returned yet, by the phase.
    fn phase(&self) -> Phase {
        let Some(c) = self.outstanding() else {
            let is_at_rest = self.forth.is_empty() && self.back.is_empty() && self.is_free() && self.reply().is_none() && !self.barred();
            return if is_at_rest { Ok((None, None)) } else { Err("quiet") };
        };
        if self.owed().is_some() {
            self.owed_phase(c)
        } else if let Some(w) = self.request() {
            self.coming_phase(c, w)
        } else if self.barred() {
            self.barred_phase(c)
        } else if !self.forth.is_empty() {
            self.asked_phase(c)
        } else if let Some(r) = self.reply() {
            let is_so = r.number == c.number && self.most == 1 && !r.ends.is_empty();
            if is_so {
                self.returning(c, (r.status, &r.values), &r.ends, &self.back)
            } else {
                Err("a reply in part")
            }
        } else {
            self.back_phase(c)
        }
    }

    fn owed_phase(&self, c: &Connect) -> Phase {
        let is_still = self.forth.is_empty() && self.back.is_empty() && self.request().is_none() && self.forbade().is_none();
        let is_so = is_still && self.owed() == Some(c.number) && c.ends.is_empty() && self.reply().is_none() && !self.barred();
        if is_so {
            Ok((None, None))
        } else {
            Err("owed")
        }
    }

    fn coming_phase(&self, c: &Connect, w: &Wanted) -> Phase {
        let request = self.request_with(w.ends.clone());
        let is_same = w.number == c.number && w.signature == request.1 && w.values == c.values && self.reply().is_none() && !self.barred();
        if !is_same || self.forbade().is_some() || self.most != 1 {
            return Err("a request in part");
        }
        let rest = if self.forth.is_empty() {
            let is_goahead = |sent: &Sent| matches!(sent.packet, Said::GoAhead(m) if m == c.number) && sent.ends.is_empty();
            if !matches!(&self.back[..], [sent] if is_goahead(sent)) || w.ends.len() != 1 {
                return Err("goahead");
            }
            c.ends.clone()
        } else {
            if !self.back.is_empty() || !c.ends.is_empty() || !are_encs(&self.forth, 1, c.number, w.ends.len()) || w.ends.is_empty() {
                return Err("enc");
            }
            ends_of(&self.forth)
        };
        self.waiting(c, joined(&w.ends, &rest), true, "the ends of a request in part")
    }

    /// What waits is the outstanding request, with as many ends as links.
    fn waiting(&self, c: &Connect, ends: Vec<End>, is_so: bool, name: &'static str) -> Phase {
        if is_so && ends.len() == links_in(&c.values) {
            Ok((Some(self.request_with(ends)), None))
        } else {
            Err(name)
        }
    }

    /// It was forbidden, and behind the forbid there is an allow, or not.
    fn is_forbidden_with(&self, c: &Connect, rest: &[&Sent]) -> bool {
        match (self.forbade(), rest) {
            (Some((m, s)), []) => *m == c.number && *s == self.request_with(Vec::new()).1,
            (None, [sent]) => matches!(sent.packet, Said::Allow(m) if m == c.number) && sent.ends.is_empty(),
            _ => false,
        }
    }

    fn barred_phase(&self, c: &Connect) -> Phase {
        let is_so = self.forth.is_empty() && self.reply().is_none() && self.is_forbidden_with(c, &self.back);
        self.waiting(c, c.ends.clone(), is_so, "barred")
    }

    /// How many ends travel with its packet.
    fn first(&self, c: &Connect) -> usize {
        links_in(&c.values).min(self.most)
    }

    fn asked_phase(&self, c: &Connect) -> Phase {
        let [sent] = self.forth[..] else { return Err("more than one request") };
        let Said::Request { number, signature, values } = &sent.packet else { return Err("asked") };
        let is_same = *number == c.number && *signature == self.request_with(Vec::new()).1 && *values == c.values;
        let is_so =
            is_same && sent.ends.len() == self.first(c) && self.back.is_empty() && self.forbade().is_none() && self.reply().is_none();
        self.waiting(c, joined(&sent.ends, &c.ends), is_so, "asked")
    }

    fn returning(&self, c: &Connect, (status, values): (u8, &Vec<packet::Value>), came: &[End], rest: &[&Sent]) -> Phase {
        let ends = joined(came, &ends_of(rest));
        let is_so =
            are_encs(rest, 2, c.number, came.len()) && ends.len() == links_in(values) && c.ends.is_empty() && self.forbade().is_none();
        if is_so {
            Ok((None, Some((c.number, Vec::new(), status, values.clone(), ends))))
        } else {
            Err("returning")
        }
    }

    fn back_phase(&self, c: &Connect) -> Phase {
        let Some(&sent) = self.back.first() else { return Err("nobody has the request") };
        match &sent.packet {
            Said::Retry(m) | Said::Forbid(m) => {
                let is_so = *m == c.number && sent.ends.len() == self.first(c);
                let is_rest = match sent.packet {
                    Said::Retry(_) => self.back.len() == 1 && self.forbade().is_none(),
                    _ => self.is_forbidden_with(c, &self.back[1..]),
                };
                self.waiting(c, joined(&sent.ends, &c.ends), is_so && is_rest, "retry or forbid")
            }
            Said::Reply { number, status, values } if *number == c.number && sent.ends.len() == links_in(values).min(self.most) => {
                self.returning(c, (*status, values), &sent.ends, &self.back[1..])
            }
            _ => Err("a packet back"),
        }
    }

    /// The requests that wait behind the outstanding one.
    fn behind(&self) -> Vec<Told> {
        let Some((kept, process)) = self.asker.kept else { return Vec::new() };
        let request = |c: &Connect| (c.number, process.signature_of(c).to_vec(), 0, c.values.clone(), c.ends.clone());
        kept.behind.iter().map(request).collect()
    }
}

/// What was done at the two ends.
struct Done {
    issued: Vec<Told>,
    accepted: Vec<Told>,
    replied: Vec<Told>,
    returned: Vec<Told>,
}

impl Done {
    /// While the link lives: what was issued is what was accepted, the request that is not accepted yet, and those behind it; and so on.
    fn test_living(&self, talk: &Talk) -> Result<(), &'static str> {
        let (pending, answer) = talk.phase()?;
        let issued: Vec<Told> = self.accepted.iter().cloned().chain(pending).chain(talk.behind()).collect();
        if issued != self.issued {
            return Err("issued");
        }
        let replied: Vec<Told> = self.returned.iter().cloned().chain(answer).collect();
        if replied != self.replied {
            return Err("replied");
        }
        let numbers: Vec<u32> = self.replied.iter().map(|reply| reply.0).chain(talk.owed()).collect();
        if numbers != self.accepted.iter().map(|request| request.0).collect::<Vec<_>>() {
            return Err("numbers");
        }
        Ok(())
    }

    /// Where the link was cut: what still comes to who serves, and to who asked.
    fn test_cut(&self, talk: &Talk) -> Result<(), &'static str> {
        if talk.server.kept.is_some_and(|(kept, _)| !kept.dead) {
            self.test_server(talk)?;
        }
        if talk.asker.kept.is_some_and(|(kept, _)| !kept.dead) {
            self.test_asker(talk)?;
        }
        Ok(())
    }

    fn test_server(&self, talk: &Talk) -> Result<(), &'static str> {
        let next = self.issued.get(self.accepted.len());
        if let Some(first) = talk.forth.first() {
            let Some(next) = next else { return Err("cut: nothing was issued") };
            let is_so = match (&first.packet, talk.request()) {
                (Said::Request { number, signature, values }, _) => {
                    let is_same = next.0 == *number && next.1 == *signature && next.3 == *values;
                    talk.forth.len() == 1 && is_same && first.ends == next.4[..next.4.len().min(talk.most)]
                }
                (_, Some(w)) => {
                    let is_same = next.0 == w.number
                        && next.1 == w.signature
                        && next.3 == w.values
                        && are_encs(&talk.forth, 1, w.number, w.ends.len());
                    is_same && next.4.starts_with(&joined(&w.ends, &ends_of(&talk.forth)))
                }
                _ => false,
            };
            if !is_so {
                return Err("cut: what comes to who serves");
            }
        }
        let numbers: Vec<u32> = self.replied.iter().map(|reply| reply.0).chain(talk.owed()).collect();
        let accepted: Vec<u32> = self.accepted.iter().map(|request| request.0).collect();
        if numbers != accepted && !(talk.forth.is_empty() && talk.owed().is_none()) {
            return Err("cut: numbers");
        }
        Ok(())
    }

    fn test_asker(&self, talk: &Talk) -> Result<(), &'static str> {
        let next = self.replied.get(self.returned.len());
        let is_reply = |sent: &&&Sent| matches!(sent.packet, Said::Reply { .. } | Said::Enc { .. });
        if !talk.back.iter().any(|sent| is_reply(&sent)) {
            return Ok(());
        }
        let Some(next) = next else { return Err("cut: nothing was replied") };
        let is_so = match (&talk.back[0].packet, talk.reply()) {
            (Said::Reply { number, status, values }, _) => {
                let is_same = next.0 == *number && next.2 == *status && next.3 == *values;
                let first = &talk.back[0].ends;
                is_same && are_encs(&talk.back[1..], 2, *number, first.len()) && next.4.starts_with(&ends_of(&talk.back))
            }
            (_, Some(r)) => {
                let is_same =
                    next.0 == r.number && next.2 == r.status && next.3 == r.values && are_encs(&talk.back, 2, r.number, r.ends.len());
                is_same && next.4.starts_with(&joined(&r.ends, &ends_of(&talk.back)))
            }
            _ => false,
        };
        if is_so {
            Ok(())
        } else {
            Err("cut: what comes back")
        }
    }
}
