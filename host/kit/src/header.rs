//! A C header beside the proved source that it declares and the wrapper's declarations of it, for the tests of a wrapper.

use std::collections::{BTreeMap, BTreeSet};

/// The three texts, and what the names of all functions begin with.
pub struct Header<'a> {
    pub header: &'a str,
    pub wrapper: &'a str,
    pub proved: &'a str,
    pub prefix: &'a str,
}

/// Each function with the types of its parameters.
pub type Functions = BTreeMap<String, Vec<String>>;

impl Header<'_> {
    /// Each function of the header with the Rust types of its parameters.
    pub fn declared_in_c(&self) -> Functions {
        let (code, start) = (self.without_comments(), format!("uint64_t {}", self.prefix));
        let prototypes = code.split(';').filter_map(|piece| piece.split_once(&start));
        prototypes.map(|(_, rest)| function(rest, |parameter| in_rust(parameter.trim()))).collect()
    }

    /// Each function of the wrapper's extern block with the types of its parameters.
    pub fn declared_in_rust(&self) -> Functions {
        let block = self.wrapper.split_once("extern \"C\" {").unwrap().1.split_once("\n}").unwrap().0;
        let start = format!("fn {}", self.prefix);
        let declarations = block.split(';').filter_map(|piece| piece.split_once(&start));
        declarations.map(|(_, rest)| function(rest, |parameter| parameter.split_once(": ").unwrap().1.to_string())).collect()
    }

    /// Each function that the library exports, its slices as C passes them: a pointer and a count.
    pub fn exported(&self) -> Functions {
        let start = format!("pub extern \"C\" fn {}", self.prefix);
        let functions = self.proved.split(&start).skip(1);
        functions.map(|rest| function(rest, |parameter| passed(parameter.split_once(": ").unwrap().1))).collect()
    }

    /// Each function of a proved source with its parameters and clauses, blanks apart.
    pub fn promised(&self, source: &str) -> BTreeMap<String, String> {
        let start = format!("fn {}", self.prefix);
        let functions = source.split(&start).skip(1);
        functions.map(|rest| promise(rest.split_once("\n{").unwrap().0)).collect()
    }

    /// The value of a name that the header defines, or that stands at a place of one of its enums.
    pub fn value(&self, name: &str) -> usize {
        let defined = self.header.lines().find_map(|line| line.strip_prefix("#define ")?.strip_prefix(name)?.strip_prefix(' '));
        match defined {
            Some(rest) => rest.split_whitespace().next().unwrap().parse().unwrap(),
            None => *self.enumerators().get(name).unwrap_or_else(|| panic!("{name} isn't in the header")),
        }
    }

    fn enumerators(&self) -> BTreeMap<String, usize> {
        let code = self.without_comments();
        let mut values = BTreeMap::new();
        for list in code.split("enum {").skip(1) {
            let mut next = 0;
            for entry in list.split_once('}').unwrap().0.split(',') {
                let (name, given) = entry.split_once('=').unwrap_or((entry, ""));
                let place = given.trim().parse().unwrap_or(next);
                values.insert(name.trim().to_string(), place);
                next = place + 1;
            }
        }
        values
    }

    fn without_comments(&self) -> String {
        self.header.split("*/").map(|piece| piece.split("/*").next().unwrap()).collect()
    }
}

/// Functions whose parameters are joined, so that a slice is as a pointer and a count.
pub fn joined(functions: Functions) -> BTreeMap<String, String> {
    functions.into_iter().map(|(name, types)| (name, types.join(", "))).collect()
}

/// The names that the clauses of a source bring in, each with its path.
pub fn brought_in(source: &str) -> BTreeSet<String> {
    let lines = source.lines().filter_map(|line| line.strip_prefix("ghost use ")?.strip_suffix("};"));
    let lists = lines.map(|line| line.split_once('{').unwrap());
    lists.flat_map(|(path, names)| names.split(", ").map(move |name| format!("{path}{name}"))).collect()
}

fn promise(text: &str) -> (String, String) {
    let name = text.split(['(', '<']).next().unwrap();
    let words: String = text.split_whitespace().collect();
    (name.to_string(), words.replace(",)", ")"))
}

fn passed(proved_type: &str) -> String {
    match proved_type.replace("'a ", "").as_str() {
        "&mut [u8]" => "*mut u8, usize".to_string(),
        "&mut [u64]" => "*mut u64, usize".to_string(),
        "&[u8]" => "*const u8, usize".to_string(),
        "&[u64]" => "*const u64, usize".to_string(),
        number => number.to_string(),
    }
}

fn function(rest: &str, of_type: impl Fn(&str) -> String) -> (String, Vec<String>) {
    let (name, parameters) = rest.split_once('(').unwrap();
    let parameters = parameters.split_once(')').unwrap().0;
    let types = parameters.split(',').filter(|parameter| !matches!(parameter.trim(), "" | "void"));
    let name = name.split('<').next().unwrap();
    (name.trim().to_string(), types.map(of_type).collect())
}

fn in_rust(parameter: &str) -> String {
    let end = parameter.rfind([' ', '*']).unwrap() + 1;
    let rust = match parameter[..end].trim() {
        "uint8_t *" => "*mut u8",
        "const uint8_t *" => "*const u8",
        "uint64_t *" => "*mut u64",
        "const uint64_t *" => "*const u64",
        "size_t" => "usize",
        "uint64_t" => "u64",
        "uint8_t" => "u8",
        other => panic!("a type that isn't known: {other}"),
    };
    rust.to_string()
}

#[cfg(test)]
mod tests {
    use super::*;

    #[test]
    fn functions_and_names_are_found() {
        let header = "#define X_A 3 /* a */\nenum {\n    X_B = 1, /* b */\n    X_C\n};\nuint64_t x_f(const uint8_t *a, size_t a_count);\nuint64_t x_g(void);\n";
        let wrapper = "extern \"C\" {\n    fn x_f(a: *const u8, a_len: usize) -> u64;\n    fn x_g() -> u64;\n}\n";
        let proved = "pub extern \"C\" fn x_f<'a>(a: &'a [u8]) -> u64 {}\npub extern \"C\" fn x_g() -> u64 {}";
        let header = Header { header, wrapper, proved, prefix: "x_" };
        assert_eq!(header.declared_in_c(), header.declared_in_rust());
        assert_eq!(joined(header.declared_in_c()), joined(header.exported()));
        assert_eq!(["X_A", "X_B", "X_C"].map(|name| header.value(name)), [3, 1, 2]);
    }

    #[test]
    fn promises_are_found() {
        let called =
            "ghost use A.{b, c};\npub fn x_f<'a>(\n    a: &'a [u8],\n) -> u64\n    ensures { result ≡ b a.now }\n{\n    0\n}\n";
        let same = "pub fn x_f<'a>(a: &'a [u8]) -> u64\n    ensures { result ≡ b a.now }\n{\n    1\n}\n";
        let other = "pub fn x_f<'a>(a: &'a [u8]) -> u64\n    ensures { result ≡ c a.now }\n{\n    0\n}\n";
        let header = Header { header: "", wrapper: "", proved: "", prefix: "x_" };
        assert_eq!(header.promised(called), header.promised(same));
        assert_ne!(header.promised(called), header.promised(other));
        assert_eq!(brought_in(called), BTreeSet::from(["A.b".to_string(), "A.c".to_string()]));
    }
}
