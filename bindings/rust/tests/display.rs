//! Policies and cores as text.

use std::thread;

use netkat::{bits, bits_of_words, desugar, Core, Exp, Expr, Names, Pattern};

fn written(policy: Exp) -> String {
    policy.to_string()
}

#[test]
fn every_kind() {
    let [a, b, c] = [1, 2, 3].map(|name| move || Expr::var(name));
    let cases = [
        (Expr::zero(), "0"),
        (Expr::one(), "1"),
        (Expr::top(), "T"),
        (Expr::dup(), "dup"),
        (Expr::end(), "end"),
        (Expr::assign(7, true), "x7 := 1"),
        (Expr::test(u32::MAX, false), "x4294967295 == 0"),
        (Expr::union(a(), b()), "n1 + n2"),
        (Expr::intersect(a(), b()), "n1 & n2"),
        (Expr::xor(a(), b()), "n1 ^ n2"),
        (Expr::difference(a(), b()), "n1 - n2"),
        (Expr::sequence(a(), b()), "n1 ; n2"),
        (Expr::ltl_until(a(), b()), "n1 U n2"),
        (Expr::complement(a()), "~n1"),
        (Expr::star(a()), "n1*"),
        (Expr::ltl_next(a()), "X n1"),
        (Expr::test_negation(a()), "!n1"),
        (Expr::if_then_else(a(), b(), c()), "if n1 then n2 else n3"),
        (Expr::let_in(1, b(), c()), "let n1 = n2 in n3"),
        (Expr::let_bit_range(1, 0, 8, c()), "let n1 = &x[0..8] in n3"),
        (Expr::var(1), "n1"),
        (Expr::var_assign(1, bits(5, 3)), "n1 := 5"),
        (Expr::var_test(1, bits(5, 3)), "n1 ~ 5"),
        (Expr::bit_range_assign(4, 8, bits(5, 4)), "x[4..8] := 5"),
        (Expr::bit_range_test(4, 8, bits(5, 4)), "x[4..8] ~ 5"),
        (Expr::bit_range_match(4, 8, Pattern::Exact(bits(5, 3))), "x[4..8] ~ 0b101"),
        (Expr::var_match(1, Pattern::Exact(bits(5, 8))), "n1 ~ 0x05"),
    ];
    for (policy, text) in cases {
        assert_eq!(written(policy), text);
    }
}

#[test]
fn patterns() {
    let ip = |text: &str| text.parse::<Pattern>().unwrap();
    let range = |from, to, a, b| Pattern::IpRange { start: bits(from, a), end: bits(to, b) };
    let cases = [
        (ip("10.0.0.1"), "10.0.0.1"),
        (ip("10.0.0.1/8"), "10.0.0.1/8"),
        (ip("10.0.0.1-10.0.0.9"), "10.0.0.1-10.0.0.9"),
        (ip("10.0.0.0 mask 0.0.0.255"), "10.0.0.0 mask 0.0.0.255"),
        (Pattern::Exact(bits(80, 7)), "80"),
        (Pattern::Exact(bits(80, 16)), "0x0050"),
        (Pattern::Exact(bits(80, 9)), "0b001010000"),
        (range(3, 5, 3, 3), "3-5"),
        // The start gets the bits that the end has above its lowest true bit.
        (range(5, 1 << 24, 8, 32), "5-1.0.0.0"),
    ];
    for (pattern, text) in cases {
        assert_eq!(pattern.to_string(), text);
        assert_eq!(Expr::var_match(1, pattern).to_string(), format!("n1 ~ {text}"));
    }
    // Behind a direct range, a decimal number has the range's width.
    let port = |pattern| Expr::bit_range_match(0, 16, pattern).to_string();
    assert_eq!(port(Pattern::Exact(bits(80, 16))), "x[0..16] ~ 80");
    assert_eq!(port(range(80, 90, 16, 16)), "x[0..16] ~ 80-90");
}

/// What the syntax cannot say has a text that the original's parser refuses.
#[test]
fn what_the_syntax_cannot_say() {
    let matched = |pattern| Expr::var_match(1, pattern);
    let cases = [
        (Expr::bit_range_assign(4, 8, bits(5, 3)), "x[4..8] := 5/3"),
        (Expr::bit_range_test(4, 8, bits(5, 3)), "x[4..8] == 5/3"),
        (Expr::bit_range_test(3, 3, vec![]), "x[3..3] == 0"),
        (Expr::bit_range_assign(5, 3, bits(1, 2)), "x[5..3] := 1/2"),
        (Expr::var_assign(1, vec![]), "n1 := 0b"),
        (Expr::var_test(1, vec![]), "n1 == 0b"),
        (matched(Pattern::Exact(vec![])), "n1 ~ 0b"),
        (matched(Pattern::Cidr { address: bits(160, 8), prefix_len: 3 }), "n1 ~ 160/3"),
        (matched(Pattern::Cidr { address: bits(1, 8), prefix_len: 3 }), "n1 ~ 0x01/3"),
        (matched(Pattern::Cidr { address: bits(1, 32), prefix_len: 33 }), "n1 ~ 0.0.0.1/33"),
        (matched(Pattern::Wildcard { address: bits(1, 8), mask: bits(3, 8) }), "n1 ~ 0x01 mask 0b00000011"),
        (matched(Pattern::Wildcard { address: bits(1, 32), mask: bits(3, 8) }), "n1 ~ 0.0.0.1 mask 0b00000011"),
        (matched(Pattern::Wildcard { address: bits(1, 40), mask: bits(3, 40) }), "n1 ~ 0x0000000001 mask 0x0000000003"),
        (matched(Pattern::IpRange { start: bits(1, 2), end: bits(3, 4) }), "n1 ~ 0b01-0x3"),
    ];
    for (policy, text) in cases {
        assert_eq!(written(policy), text);
    }
    // But an empty range can be assigned nothing.
    assert_eq!(written(Expr::bit_range_assign(3, 3, vec![])), "x[3..3] := 0");
}

#[test]
fn long_literals() {
    let text = |width| Expr::var_assign(1, bits(1, width)).to_string();
    let (zeros, one) = ("0".repeat(32), format!("{}1", "0".repeat(31)));
    assert_eq!(text(128), format!("n1 := 0x{one}"));
    assert_eq!(text(129), format!("n1 := 0b0_{zeros}_{zeros}_{zeros}_{one}"));
    assert_eq!(text(191), format!("n1 := 0b{}_{zeros}_{zeros}_{zeros}_{zeros}_{one}", "0".repeat(31)));
    assert_eq!(text(192), "n1 := 0x00000000_00000000_00000000_00000000_00000000_00000001");

    // A direct range gives a decimal number its width, up to 128 bits.
    let text = |width| Expr::bit_range_assign(0, width, bits(1, width as usize)).to_string();
    assert_eq!(text(128), "x[0..128] := 1");
    assert_eq!(text(129), format!("x[0..129] := 0b0_{zeros}_{zeros}_{zeros}_{one}"));
    assert_eq!(text(160), "x[0..160] := 0x00000000_00000000_00000000_00000000_00000001");
}

/// The digits of a label stack of six words are those of the words.
#[test]
fn label_stacks() {
    let stack = || bits_of_words(&[0x10040, 0x11040, 0x12040, 0x13040, 0x14040, 0x15140]);
    let digits = "0x00010040_00011040_00012040_00013040_00014040_00015140";
    let text = |pattern| Expr::bit_range_match(0, 192, pattern).to_string();
    assert_eq!(Expr::bit_range_test(0, 192, stack()).to_string(), format!("x[0..192] ~ {digits}"));
    assert_eq!(text(Pattern::Exact(stack())), format!("x[0..192] ~ {digits}"));
    assert_eq!(text(Pattern::Exact(bits_of_words(&[0x10040, 0x11040]))), "x[0..192] ~ 0x0001004000011040");
    assert_eq!(text(Pattern::Cidr { address: stack(), prefix_len: 96 }), format!("x[0..192] ~ {digits}/96"));
    let mask = bits_of_words(&[0, 0xfff, u32::MAX, 0, 0, 0]);
    assert_eq!(
        text(Pattern::Wildcard { address: stack(), mask }),
        format!("x[0..192] ~ {digits} mask 0x00000000_00000fff_ffffffff_00000000_00000000_00000000")
    );
    // Where the width is not the range's it is said, and the digits are hexadecimal at any width.
    assert_eq!(Expr::bit_range_assign(0, 160, stack()).to_string(), format!("x[0..160] := {digits}/192"));
    let odd = Expr::bit_range_test(0, 160, stack()[..189].to_vec());
    assert_eq!(odd.to_string(), format!("x[0..160] == {digits}/189"));
}

#[test]
fn parentheses() {
    let [a, b, c] = [1, 2, 3].map(|name| move || Expr::var(name));
    let test = || Expr::test(0, true);
    let number = || Expr::var_match(4, Pattern::Exact(bits(5, 3)));
    let cases = [
        (Expr::union(a(), Expr::union(b(), c())), "n1 + (n2 + n3)"),
        (Expr::union(Expr::difference(a(), b()), c()), "n1 - n2 + n3"),
        (Expr::sequence(Expr::union(a(), b()), c()), "(n1 + n2) ; n3"),
        (Expr::sequence(a(), Expr::intersect(b(), c())), "n1 ; n2 & n3"),
        (Expr::intersect(Expr::sequence(a(), b()), c()), "(n1 ; n2) & n3"),
        (Expr::ltl_until(a(), Expr::ltl_until(b(), c())), "n1 U n2 U n3"),
        (Expr::ltl_until(Expr::ltl_until(a(), b()), c()), "(n1 U n2) U n3"),
        (Expr::test_negation(test()), "!(x0 == 1)"),
        (Expr::star(Expr::complement(a())), "(~n1)*"),
        (Expr::complement(Expr::star(a())), "~n1*"),
        (Expr::star(Expr::star(Expr::assign(0, true))), "(x0 := 1)**"),
        (Expr::ltl_next(Expr::sequence(a(), b())), "X (n1 ; n2)"),
        (Expr::union(a(), Expr::let_in(1, b(), c())), "n1 + (let n1 = n2 in n3)"),
        (Expr::let_in(1, Expr::let_in(2, a(), b()), Expr::union(a(), b())), "let n1 = let n2 = n1 in n2 in n1 + n2"),
        (Expr::if_then_else(test(), Expr::if_then_else(a(), b(), c()), a()), "if x0 == 1 then if n1 then n2 else n3 else n1"),
        // A minus behind a decimal pattern would make it a range.
        (Expr::difference(number(), a()), "(n4 ~ 5) - n1"),
        (Expr::difference(Expr::union(a(), number()), b()), "n1 + (n4 ~ 5) - n2"),
        (Expr::difference(Expr::sequence(a(), Expr::intersect(b(), number())), c()), "n1 ; n2 & (n4 ~ 5) - n3"),
        (Expr::difference(Expr::ltl_until(a(), number()), b()), "(n1 U n4 ~ 5) - n2"),
        (Expr::difference(a(), number()), "n1 - n4 ~ 5"),
        (Expr::difference(Expr::var_test(4, bits(5, 4)), a()), "n4 ~ 0x5 - n1"),
    ];
    for (policy, text) in cases {
        assert_eq!(written(policy), text);
    }
}

#[test]
fn names_that_are_no_names() {
    let mut names = Names::new();
    let good = ["dst", "src_ip", "größe", "mask", "T1", "x1a", "x4294967296"];
    let bad = ["", "x", "x7", "x4294967295", "T", "in", "end", "two words", "a+b", "_a", "7", "n7"];
    for word in good.iter().chain(&bad) {
        names.intern(word);
    }
    let text = |name| Expr::Var(name).display(&names).to_string();
    for (number, word) in (0..).zip(good) {
        assert_eq!(text(number), word);
    }
    // 7 to 18 are the bad words, but "n7" is good, so that it is not free for 7.
    assert_eq!(text(7), "n7_");
    assert_eq!(text(8), "n8");
    assert_eq!(text(17), "n17");
    assert_eq!(text(18), "n7");
    assert_eq!(text(999), "n999");
}

/// The original's parser gives each of these texts its term.
#[test]
fn texts_that_were_read_back() {
    let mut count = 0;
    for line in include_str!("readback.txt").lines().filter(|line| !line.starts_with('#')) {
        let (hex, text) = line.split_once(' ').unwrap();
        let bytes: Vec<u8> = (0..hex.len()).step_by(2).map(|i| u8::from_str_radix(&hex[i..i + 2], 16).unwrap()).collect();
        assert_eq!(Expr::from_bytes(&bytes).unwrap().to_string(), text);
        count += 1;
    }
    assert_eq!(count, 160);
}

#[test]
fn cores() {
    let kinds = [
        (Expr::zero(), "0"),
        (Expr::one(), "1"),
        (Expr::top(), "T"),
        (Expr::dup(), "dup"),
        (Expr::end(), "end"),
        (Expr::assign(1, false), "x1 := 0"),
        (Expr::test(1, true), "x1 == 1"),
        (Expr::complement(Expr::test(1, true)), "~(x1 == 1)"),
        (Expr::star(Expr::dup()), "dup*"),
        (Expr::ltl_next(Expr::dup()), "X dup"),
        (Expr::union(Expr::dup(), Expr::xor(Expr::dup(), Expr::end())), "dup + (dup ^ end)"),
        (Expr::difference(Expr::sequence(Expr::dup(), Expr::end()), Expr::top()), "dup ; end - T"),
        (Expr::ltl_until(Expr::intersect(Expr::dup(), Expr::end()), Expr::top()), "dup & end U T"),
    ];
    for (tree, text) in kinds {
        assert_eq!(Core::from_expr(&tree).unwrap().to_string(), text);
    }
    let policy = Expr::if_then_else(Expr::test(0, true), Expr::assign(1, true), Expr::zero());
    let core = desugar(&policy).unwrap();
    assert_eq!(core.to_string(), "x0 == 1 ; x1 := 1 + x0 == 0 ; 0");
    assert_eq!(core.root().children().nth(1).unwrap().to_string(), "x0 == 0 ; 0");
}

/// The lines that the README shows for examples/policy.rs.
#[test]
fn output_in_the_readme() {
    let mut names = Names::new();
    let dst = names.intern("dst");
    let policy = |prefix_len| {
        let guests = Pattern::Cidr { address: bits(160, 8), prefix_len };
        let allow = Expr::if_then_else(Expr::var_match(dst, guests), Expr::assign(8, true), Expr::zero());
        Expr::let_bit_range(dst, 0, 8, allow)
    };
    let refusal = desugar(&policy(9)).unwrap_err();
    let lines =
        format!("{}\n{}\n{}", policy(3).display(&names), desugar(&policy(3)).unwrap(), refusal.explain(&policy(9), &names));
    for line in lines.lines() {
        assert!(include_str!("../README.md").contains(&format!("   {line}\n")), "{line}");
    }
}

/// On a stack that is far too small for recursion over the tree.
#[test]
fn deep_trees() {
    let work = || {
        let stars = (1..60_000).fold(Expr::dup(), |body, _| Expr::star(body));
        assert_eq!(stars.to_string(), format!("dup{}", "*".repeat(59_999)));
        let text = stars.check().unwrap_err().explain(&stars, &Names::new());
        assert!(text.starts_with("the policy is nested 60,000 levels deep, and 256 are the limit"), "{text}");

        let leaning_right = (1..60_000).fold(Expr::dup(), |rest, _| Expr::sequence(Expr::end(), rest));
        let text = format!("{}end ; dup{}", "end ; (".repeat(59_998), ")".repeat(59_998));
        assert_eq!(leaning_right.to_string(), text);
        assert_eq!(Core::from_expr(&leaning_right).unwrap().to_string(), text);
        let leaning_left = (1..60_000).fold(Expr::dup(), |rest, _| Expr::difference(rest, Expr::end()));
        assert_eq!(leaning_left.to_string(), format!("dup{}", " - end".repeat(59_999)));
    };
    thread::Builder::new().stack_size(64 * 1024).spawn(work).unwrap().join().unwrap();
}
