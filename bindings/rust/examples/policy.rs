//! The core of a small policy, and the reason why another one has none.

use netkat::{bits, desugar, Expr, Names, Pattern};

fn main() {
    let mut names = Names::new();
    let dst = names.intern("dst");
    for prefix_len in [3, 9] {
        let guests = Pattern::Cidr { address: bits(160, 8), prefix_len };
        let allow = Expr::if_then_else(Expr::var_match(dst, guests), Expr::assign(8, true), Expr::zero());
        let policy = Expr::let_bit_range(dst, 0, 8, allow);

        println!("{}", policy.display(&names));
        match desugar(&policy) {
            Ok(core) => println!("{core}"),
            Err(refusal) => println!("{}", refusal.explain(&policy, &names)),
        }
    }
}
