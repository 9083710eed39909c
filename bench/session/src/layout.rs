//! The bytes of a type, from the MIR that `rt mir` prints: fields in order at their own alignment, and a byte before the fields of each variant of an enum.

/// A named type's size, where the MIR declares it.
pub fn size_of(mir: &str, name: &str) -> Option<usize> {
    named(mir, name).map(|(size, _)| size)
}

enum Term {
    Word(String),
    Group(Vec<Term>),
}

fn term(text: &mut std::str::Chars<'_>) -> Option<Term> {
    let rest = text.as_str();
    match rest.chars().next()? {
        ' ' => {
            text.next();
            term(text)
        }
        '(' => {
            text.next();
            let mut parts = Vec::new();
            loop {
                match text.as_str().chars().next()? {
                    ')' => {
                        text.next();
                        return Some(Term::Group(parts));
                    }
                    ' ' => {
                        text.next();
                    }
                    _ => parts.push(term(text)?),
                }
            }
        }
        _ => {
            let end = rest.find([' ', '(', ')']).unwrap_or(rest.len());
            *text = rest[end..].chars();
            Some(Term::Word(rest[..end].to_string()))
        }
    }
}

fn group(term: &Term) -> &[Term] {
    match term {
        Term::Group(parts) => parts,
        Term::Word(_) => &[],
    }
}

fn word(term: &Term) -> &str {
    match term {
        Term::Word(word) => word,
        Term::Group(_) => "",
    }
}

/// The entries of a list that is written as pairs of its first and the rest.
fn list(mut term: &Term) -> Vec<&Term> {
    let mut entries = Vec::new();
    while let [_, first, rest] = group(term) {
        entries.push(first);
        term = rest;
    }
    entries
}

fn named(mir: &str, name: &str) -> Option<(usize, usize)> {
    let declared = |kind: &str| mir.find(&format!("(pair \"{name}\" ({kind} ")).map(|at| &mir[at..]);
    if let Some(text) = declared("fields") {
        let declaration = term(&mut text.chars())?;
        let fields = group(&group(&declaration)[2]);
        return placed(mir, &list(&fields[1]), 0);
    }
    let declaration = term(&mut declared("variants")?.chars())?;
    let variants = group(&group(&declaration)[2]);
    let sizes: Option<Vec<_>> = list(&variants[1]).into_iter().map(|fields| placed(mir, &list(fields), 1)).collect();
    let align = sizes.as_ref()?.iter().map(|size| size.1).max()?;
    Some((sizes?.iter().map(|size| size.0).max()?.next_multiple_of(align), align))
}

/// Fields one after the other, from a place on.
fn placed(mir: &str, fields: &[&Term], from: usize) -> Option<(usize, usize)> {
    let (mut end, mut most) = (from, 1);
    for field in fields {
        let (size, align) = of(mir, field)?;
        end = end.next_multiple_of(align) + size;
        most = most.max(align);
    }
    Some((end.next_multiple_of(most), most))
}

fn of(mir: &str, ty: &Term) -> Option<(usize, usize)> {
    if word(ty) == "tyBool" {
        return Some((1, 1));
    }
    let parts = group(ty);
    match word(parts.first()?) {
        "tyInt" | "tyFloat" => {
            let bytes = word(&parts[1]).parse::<usize>().ok()? / 8;
            Some((bytes, bytes))
        }
        "tyArray" => {
            let (size, align) = of(mir, &parts[1])?;
            let length: usize = word(&group(&parts[2])[1]).parse().ok()?;
            Some((size * length, align))
        }
        "tyNamed" => named(mir, word(&group(&parts[1])[1]).trim_matches('"')),
        _ => None,
    }
}
