// Points the module tree at the original's files as they are.

#[path = "../original/tree.rs"]
mod tree;

fn main() {
    tree::write_tree(|name| tree::original(&format!("topological/{name}.rs")));
}
