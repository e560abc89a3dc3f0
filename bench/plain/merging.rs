// The text of a transcript: what the plain programs share that print one from journals.
//
// A program takes it in by `include!`.

fn put_header(out: &mut impl Write, setting: &Setting) -> io::Result<()> {
    put_line(out, format!("transcript {}\n", setting.version))?;
    put_line(out, format!("kernels {}\n", setting.kernels))?;
    for (process, kernel) in setting.homes.iter().enumerate() {
        put_line(out, format!("process {process} on {kernel}\n"))?;
    }
    for (first, second) in &setting.wires {
        put_line(out, format!("wire {first} {second}\n"))?;
    }
    Ok(())
}

/// One line, one call.
fn put_line(out: &mut impl Write, line: String) -> io::Result<()> {
    out.write_all(line.as_bytes())
}

/// The entries of all journals in order of (stamp, kernel).
fn put_merged(out: &mut impl Write, journals: &[Journal]) -> io::Result<()> {
    let mut rests: Vec<_> = journals.iter().map(|journal| (journal.entries.iter().peekable(), &journal.text[..])).collect();
    loop {
        let stamps = rests.iter_mut().map(|(entries, _)| entries.peek().map_or(u64::MAX, |entry| entry.0));
        let Some((least, kernel)) = stamps.zip(0..).min() else { return Ok(()) };
        if least == u64::MAX {
            return Ok(());
        }
        let (entries, text) = &mut rests[kernel];
        let Some(&(_, length)) = entries.next() else { return Ok(()) };
        let (entry, rest) = text.split_at(length as usize);
        *text = rest;
        for line in entry.split_inclusive(|&byte| byte == b'\n') {
            out.write_all(line)?;
        }
    }
}
