// Folded products against the machine's own: every pair of words whose 16-bit limbs are at or beside their limits.

use gemtweed::{Mode, Node, NodeId, Sort, Table};

const LIMBS: [u64; 4] = [0, 1, 0x8000, 0xffff];

fn words() -> Vec<u64> {
    let mut words = vec![0];
    for _ in 0..4 {
        words = words.iter().flat_map(|word| LIMBS.map(|limb| word << 16 | limb)).collect();
    }
    words
}

// How many of the left word's products with the right ones are not folded to what is expected.
fn wrong(left: u64, rights: &[u64], expected: fn(u64, u64) -> u64) -> usize {
    let sort = Sort::Word;
    let mut table = Table::default();
    let factor = table.add(Node::Const { sort, number: left });
    let mut sum = factor;
    let mut products = Vec::new();
    for &number in rights {
        let right = table.add(Node::Const { sort, number });
        let product = table.add(Node::Mul { left: factor, right });
        sum = table.add(Node::Add { left: sum, right: product });
        products.push((product, expected(left, number)));
    }
    let condition = table.add(Node::Ult { left: sum, right: factor });
    let bad = table.add(Node::Bad { condition, name: None });
    table.initial_bads.push(bad);

    let folded = table.fold(Mode::default()).unwrap();
    let number_for = |node: NodeId| {
        let (_, constant) = folded.replacements.iter().find(|(replaced, _)| *replaced == node)?;
        Some(folded.constants[constant.0 as usize - table.nodes.len()].number)
    };
    products.iter().filter(|(product, number)| number_for(*product) != Some(*number)).count()
}

#[test]
fn limbs_at_their_limits() {
    let words = words();
    assert_eq!(words.len(), 256);
    for &left in &words {
        assert_eq!(wrong(left, &words, u64::wrapping_mul), 0, "left {left:#x}");
    }
}

#[test]
fn another_product_is_counted_wrong() {
    let words = words();
    assert_eq!(wrong(0xffff, &words, |left, right| left.wrapping_mul(right) ^ 1 << 63), 256);
}
