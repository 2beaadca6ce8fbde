//! The definitions of the repository, and which names each of them mentions.

use std::collections::{BTreeMap, BTreeSet, HashMap};
use std::fs;
use std::io;
use std::path::{Path, PathBuf};

/// A definition: its crate, its module (as `Below` or `Below.Ends`; `proofs.Below.Laws` for what stands in `proofs/`, `declared`
/// for a type of the code) and its name.
#[derive(Clone, Debug, PartialEq, Eq, PartialOrd, Ord, Hash)]
pub struct Name {
    pub krate: String,
    pub module: String,
    pub name: String,
}

impl Name {
    pub fn new(krate: &str, module: &str, name: &str) -> Name {
        Name {
            krate: krate.into(),
            module: module.into(),
            name: name.into(),
        }
    }
}

/// One definition as it stands in its file.
pub struct Definition {
    /// The comment above it.
    pub comment: String,
    /// Its lines, without comments.
    pub lines: Vec<String>,
    /// Fields or constructors.
    pub parts: Vec<String>,
    /// Where it stands in its file.
    pub at: usize,
}

#[derive(Default)]
struct File {
    path: String,
    /// Names that are brought in: what each stands for.
    names: HashMap<String, Name>,
    /// Modules that are brought in under a name.
    modules: HashMap<String, (String, String)>,
    definitions: BTreeMap<String, Definition>,
    /// Lines that are no blank, comment or import.
    size: usize,
}

pub struct Sources {
    root: PathBuf,
    /// The crates in reading order.
    pub crates: Vec<String>,
    files: BTreeMap<(String, String), File>,
}

/// The parts of a text that can be names.
fn words(text: &str) -> Vec<&str> {
    text.split(|c: char| c.is_whitespace() || "(){}[],;:|".contains(c))
        .filter(|w| !w.is_empty())
        .collect()
}

/// The parts of a projection or of a name in a module: `P.states` is (P, states). What a lambda binds, `i.`, is none.
fn parts_of(word: &str) -> Option<(&str, &str)> {
    word.split_once('.')
        .filter(|(head, rest)| !head.is_empty() && !rest.is_empty())
}

fn without_comment(line: &str) -> &str {
    match line.find("--") {
        Some(0) => "",
        Some(at) if line[..at].ends_with(' ') => line[..at].trim_end(),
        _ => line,
    }
}

/// `Rattle.theory.specs.Below.Ends` is (theory, Below.Ends), and `Rattle.theory.proofs.Below.Laws` (theory, proofs.Below.Laws).
fn module_of(path: &str) -> Option<(String, String)> {
    let (krate, module) = path.strip_prefix("Rattle.")?.split_once('.')?;
    Some((krate.into(), module.trim_start_matches("specs.").into()))
}

impl File {
    /// Takes up one `use` line.
    fn import(&mut self, line: &str) {
        let line = line
            .trim_start_matches("ghost ")
            .trim_start_matches("use ")
            .trim_end_matches(';');
        if let Some((path, names)) = line.split_once(".{") {
            let Some((krate, module)) = module_of(path) else { return };
            for item in names.trim_end_matches('}').split(',') {
                let item = item.trim();
                let (name, local) = item.split_once(" as ").unwrap_or((item, item));
                self.names
                    .insert(local.trim().into(), Name::new(&krate, &module, name.trim()));
            }
        } else if let Some((path, local)) = line.split_once(" as ") {
            if let Some(module) = module_of(path) {
                self.modules.insert(local.trim().into(), module);
            }
        }
    }
}

/// The name that a line begins to define, and whether it is a record or a data type.
fn heading(line: &str) -> Option<(String, bool)> {
    let mut rest = line.trim();
    for word in ["abbrev ", "unfoldable ", "pub "] {
        rest = rest.strip_prefix(word).unwrap_or(rest);
    }
    for word in ["record ", "data "] {
        if let Some(after) = rest.strip_prefix(word) {
            let name: String = after.chars().take_while(|c| !c.is_whitespace()).collect();
            return name.chars().next().filter(|c| c.is_uppercase()).map(|_| (name, true));
        }
    }
    let (name, after) = rest.split_once(' ')?;
    (after == ":" || after.starts_with(": ")).then(|| (name.to_string(), false))
}

fn read_file(path: &Path) -> io::Result<File> {
    let text = fs::read_to_string(path)?;
    let mut file = File {
        path: path.display().to_string(),
        ..File::default()
    };
    let mut comment: Vec<String> = Vec::new();
    let mut module: Vec<String> = Vec::new();
    let mut current: Option<String> = None;
    let mut record: Option<usize> = None;
    for (at, full) in text.lines().enumerate() {
        let line = full.trim();
        let indent = full.len() - full.trim_start().len();
        if line.starts_with("--") {
            if record.is_none_or(|r| indent <= r) {
                comment.push(line.trim_start_matches('-').trim().to_string());
            }
            continue;
        }
        if line.is_empty() {
            comment.clear();
            continue;
        }
        if line.starts_with("use ") {
            file.import(line);
            continue;
        }
        if line.starts_with("pub mod ") || line.starts_with("mod ") {
            continue;
        }
        file.size += 1;
        let code = without_comment(full).to_string();
        if line.starts_with("module _") {
            (current, record) = (None, None);
            // The comment above a section serves where its first definition has none.
            module = std::mem::take(&mut comment);
            continue;
        }
        let inside = record.is_some_and(|r| indent > r);
        match heading(&code) {
            Some((name, false)) if inside => {
                let definition = file.definitions.get_mut(current.as_ref().unwrap()).unwrap();
                definition.parts.push(name);
                definition.lines.push(code);
            }
            Some((name, is_record)) if !inside => {
                record = is_record.then_some(indent);
                let above = std::mem::take(&mut module);
                let own = std::mem::take(&mut comment);
                let comment = if own.is_empty() { above } else { own }.join(" ");
                let lines = vec![code];
                file.definitions.insert(
                    name.clone(),
                    Definition {
                        comment,
                        lines,
                        parts: Vec::new(),
                        at,
                    },
                );
                current = Some(name);
            }
            _ => {
                if let Some(name) = &current {
                    file.definitions.get_mut(name).unwrap().lines.push(code);
                }
            }
        }
    }
    Ok(file)
}

/// The structs and enums of a crate's code, as definitions of the module `declared`.
fn read_types(path: &Path) -> io::Result<File> {
    let text = fs::read_to_string(path)?;
    let mut file = File {
        path: path.display().to_string(),
        ..File::default()
    };
    let mut comment: Vec<String> = Vec::new();
    let mut current: Option<String> = None;
    for (at, line) in text.lines().enumerate() {
        if let Some(rest) = line.strip_prefix("// ") {
            comment.push(rest.to_string());
            continue;
        }
        if line.starts_with("#[") {
            continue;
        }
        let head = line.trim_start_matches("pub ");
        let name = head.strip_prefix("struct ").or_else(|| head.strip_prefix("enum "));
        if let Some(name) = name {
            let name: String = name.chars().take_while(|c| c.is_alphanumeric()).collect();
            let comment = std::mem::take(&mut comment).join(" ");
            file.definitions.insert(
                name.clone(),
                Definition {
                    comment,
                    lines: vec![line.into()],
                    parts: Vec::new(),
                    at,
                },
            );
            current = Some(name);
            continue;
        }
        comment.clear();
        if let Some(name) = &current {
            let definition = file.definitions.get_mut(name).unwrap();
            definition.lines.push(line.into());
            let part: String = line
                .trim()
                .trim_start_matches("pub ")
                .chars()
                .take_while(|c| c.is_alphanumeric())
                .collect();
            definition.parts.push(part);
            if line == "}" {
                current = None;
            }
        }
    }
    Ok(file)
}

fn files_below(folder: &Path) -> io::Result<Vec<PathBuf>> {
    let mut found = Vec::new();
    for entry in fs::read_dir(folder)? {
        let path = entry?.path();
        if path.is_dir() {
            found.extend(files_below(&path)?);
        } else if path.extension().is_some_and(|e| e == "antt") {
            found.push(path);
        }
    }
    found.sort();
    Ok(found)
}

impl Sources {
    pub fn read(folder: &str, list: &str) -> io::Result<Sources> {
        let root = PathBuf::from(folder);
        let text = fs::read_to_string(list)?;
        let crates: Vec<String> = text
            .lines()
            .filter_map(|l| l.split_once(':'))
            .filter_map(|(name, _)| name.split_whitespace().next())
            .map(str::to_string)
            .collect();
        let mut files = BTreeMap::new();
        for krate in &crates {
            for (folder, prefix) in [("specs", ""), ("proofs", "proofs.")] {
                let folder = root.join(krate).join(folder);
                for path in if folder.is_dir() {
                    files_below(&folder)?
                } else {
                    Vec::new()
                } {
                    let below = path.strip_prefix(&folder).unwrap().with_extension("");
                    let module = below
                        .components()
                        .map(|c| c.as_os_str().to_string_lossy().into_owned())
                        .collect::<Vec<_>>()
                        .join(".");
                    // A function's proof stands in files of these names.
                    if !["Answers", "Invariants", "Proof"]
                        .iter()
                        .any(|name| below.ends_with(name))
                    {
                        files.insert((krate.clone(), format!("{prefix}{module}")), read_file(&path)?);
                    }
                }
            }
            let code = root.join(krate).join("src/lib.rt");
            if code.is_file() {
                files.insert((krate.clone(), "declared".into()), read_types(&code)?);
            }
        }
        Ok(Sources { root, crates, files })
    }

    fn file(&self, name: &Name) -> Option<&File> {
        self.files.get(&(name.krate.clone(), name.module.clone()))
    }

    /// The definition that a name belongs to: itself, or the type whose constructor or field it is.
    pub fn owner(&self, name: &Name) -> Option<Name> {
        if let Some(rest) = name.module.strip_prefix("declared") {
            let kind = rest.trim_start_matches('.').split('.').next().unwrap_or_default();
            let kind = if kind.is_empty() { &name.name } else { kind };
            let own = Name::new(&name.krate, "declared", kind);
            return self.file(&own)?.definitions.contains_key(kind).then_some(own);
        }
        let file = self.file(name)?;
        if file.definitions.contains_key(&name.name) {
            return Some(name.clone());
        }
        let (owner, _) = file.definitions.iter().find(|(_, d)| d.parts.contains(&name.name))?;
        Some(Name::new(&name.krate, &name.module, owner))
    }

    pub fn definition(&self, name: &Name) -> &Definition {
        &self.files[&(name.krate.clone(), name.module.clone())].definitions[&name.name]
    }

    /// The names that a text in a file mentions. A field (`x.states`, `states = ..` in a record) is none.
    fn mentioned(&self, own: &Name, text: &str) -> Vec<Name> {
        let Some(file) = self.file(own) else { return Vec::new() };
        let all = words(text);
        let mut found = Vec::new();
        for (i, word) in all.iter().enumerate() {
            if word.starts_with('.') {
                continue;
            }
            if let Some(name) = file.names.get(*word) {
                found.push(name.clone());
            } else if file.definitions.contains_key(*word) && all.get(i + 1) != Some(&"=") {
                found.push(Name::new(&own.krate, &own.module, word));
            } else if let Some((head, rest)) = parts_of(word) {
                if let Some((krate, module)) = file.modules.get(head) {
                    let name = parts_of(rest).map_or(rest, |(name, _)| name);
                    found.push(Name::new(krate, module, name));
                } else if let Some(name) = file.names.get(head) {
                    found.push(name.clone());
                } else if file.definitions.contains_key(head) {
                    found.push(Name::new(&own.krate, &own.module, head));
                }
            }
        }
        found
    }

    pub fn references(&self, name: &Name) -> BTreeSet<Name> {
        if self.is_declared(name) {
            return self.type_references(name);
        }
        let definition = self.definition(name);
        let mut text = definition.lines.join("\n");
        // A clause repeats the name that it defines.
        text = text.replace(" = record {", " record {");
        self.mentioned(name, &text).into_iter().filter(|n| n != name).collect()
    }

    /// The types that a type of the code holds.
    fn type_references(&self, name: &Name) -> BTreeSet<Name> {
        let text = self.definition(name).lines.join("\n");
        let mut found = BTreeSet::new();
        for word in text.split(|c: char| !c.is_alphanumeric()) {
            for krate in &self.crates {
                let other = Name::new(krate, "declared", word);
                if other != *name && self.file(&other).is_some_and(|f| f.definitions.contains_key(word)) {
                    found.insert(other);
                }
            }
        }
        found
    }

    /// The names in the contracts of a crate's exported functions.
    pub fn contract_names(&self, krate: &str) -> Vec<Name> {
        let path = self.root.join(krate).join("src/lib.rt");
        let text = fs::read_to_string(path).unwrap_or_default();
        let mut file = File::default();
        let mut found = Vec::new();
        let mut exported = false;
        for line in text.lines() {
            if line.starts_with("ghost use ") {
                file.import(line);
            }
            if line.starts_with("pub extern ") {
                exported = true;
            }
            if line.starts_with('{') {
                exported = false;
            }
            if exported {
                let heads = words(line).into_iter().map(|w| parts_of(w).map_or(w, |(head, _)| head));
                found.extend(heads.filter_map(|w| file.names.get(w)).cloned());
            }
        }
        found
    }

    pub fn definitions(&self) -> Vec<Name> {
        let each = self.files.iter().flat_map(|((krate, module), file)| {
            file.definitions.keys().map(move |name| Name::new(krate, module, name))
        });
        each.collect()
    }

    pub fn is_declared(&self, name: &Name) -> bool {
        name.module == "declared"
    }

    /// Whether the file of a definition is one to be believed.
    pub fn is_page(&self, name: &Name) -> bool {
        is_page(&name.module)
    }

    pub fn path(&self, name: &Name) -> &str {
        &self.files[&(name.krate.clone(), name.module.clone())].path
    }

    /// The modules of a crate in the order of its Lib.antt, the types of its code first.
    pub fn modules(&self, krate: &str) -> Vec<String> {
        let path = self.root.join(krate).join("specs/Lib.antt");
        let text = fs::read_to_string(path).unwrap_or_default();
        let mut modules = vec!["declared".to_string()];
        modules.extend(
            text.lines()
                .filter_map(|l| l.strip_prefix("pub mod "))
                .map(str::to_string),
        );
        modules
    }

    /// How many lines the files of a crate have, whose module passes the test.
    pub fn size(&self, krate: &str, test: impl Fn(&str) -> bool) -> usize {
        self.files
            .iter()
            .filter(|((k, m), _)| k == krate && test(m))
            .map(|(_, f)| f.size)
            .sum()
    }
}

pub fn is_page(module: &str) -> bool {
    !module.contains('.') && !["Lib", "Code", "Samples", "Dockets", "Cases", "Unfold", "declared"].contains(&module)
}
