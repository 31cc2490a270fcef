//! Every definition, theorem, function, must-fail edit, rule and path that README.md, CONTRIBUTING.md,
//! tests/README.md and the pages under docs/ cite is there. The forms of citing
//! are fixed in docs/ARCHITECTURE.md.

mod page;
mod parts;
mod tree;

use page::Page;
use std::fs;
use std::path::Path;
use std::process::ExitCode;
use tree::Tree;

fn main() -> ExitCode {
    let root = Path::new(env!("CARGO_MANIFEST_DIR")).join("../..");
    let tree = Tree::read(&root);
    missing_is_seen(&tree);
    let (mut checked, mut missing) = (0, 0);
    for path in pages(&root) {
        let text = fs::read_to_string(root.join(&path)).expect("a page");
        let mut page = Page::new(&tree);
        for (number, line) in text.lines().enumerate() {
            page.read_line(line);
            for found in page.missing.drain(..) {
                println!("{path}:{}: {found}", number + 1);
                missing += 1;
            }
        }
        checked += page.checked;
    }
    println!("{checked} citations, {missing} of what is not there");
    ExitCode::from(u8::from(missing > 0))
}

fn pages(root: &Path) -> Vec<String> {
    let mut pages = ["README.md", "CONTRIBUTING.md", "tests/README.md"]
        .map(String::from)
        .to_vec();
    for entry in fs::read_dir(root.join("docs")).expect("docs") {
        let name = entry.expect("a page").file_name();
        pages.push(format!("docs/{}", name.to_string_lossy()));
    }
    pages.sort();
    pages
}

/// Each form is refused where its name is not there, and taken where it is.
fn missing_is_seen(tree: &Tree) {
    for (there, line) in [
        (true, "aco/Reading `repeated_field`, `entry` and `second`"),
        (false, "aco/Nothing"),
        (false, "aco/Reading `repeated_field`, `nothing`"),
        (true, "`aco_judge::judge`"),
        (false, "`aco_judge::nothing`"),
        (false, "`aco_judge::judge`, `nothing`"),
        (true, "`put_row` of `aco_read` and `ase_read`"),
        (false, "`put_row` of `aco_judge`"),
        (false, "`put_row` of `aco_read` and `aco_judge`"),
        (true, "`refused-placed` of aco/Placed and ase/Placed"),
        (false, "`repeated_field` of aco/Placed"),
        (true, "aco/one_colour_more"),
        (false, "aco/one_colour_less"),
        (false, "`no-such-theorem`"),
        (false, "`noSuchDefinition`"),
        (true, "by A19 and G1"),
        (false, "by A19, A99"),
        (false, "docs/NOTHING.md"),
        (false, "`aco/proofs/judge/Proof.antt`"),
        (true, "| A1 | colour | Must-fail edit |\n|---|---|---|\n| A2 | | aco/one_colour_more, names_after_colours |"),
        (false, "| A1 | colour | Must-fail edit |\n|---|---|---|\n| A2 | | aco/one_colour_more, nothing |"),
        (false, "| A1 | colour | Must-fail edit |\n|---|---|---|\n| A2 | | (those of A1) |"),
    ] {
        let mut page = Page::new(tree);
        line.lines().for_each(|line| page.read_line(line));
        let seen = page.missing.is_empty();
        assert!(page.checked > 0 && seen == there, "{line}: {:?}", page.missing);
    }
}
